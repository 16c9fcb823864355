/* The classes of differences: their inputs as text, and how an input is made smaller. */
#ifndef SMALLEST_H
#define SMALLEST_H

#include <string>
#include <vector>

#include "feed.h"

/* The smallest of these calls, each made smaller as long as the package answers otherwise than the
 * quoted standard and the class stays the same. */
Call smallest(const std::vector<Call> &calls);

/* A class as text: its name, the records, and the two answers. */
void print_class(std::ostream &out, const std::string &name, const Call &call);

/* Writes the records of a text of classes as a feed; 0 if that was done. */
int write_classes(const std::string &classes, const std::string &feed);

/* Holds the answers to the text; `lines` are the Rust's for the feed. */
int check_classes(const std::string &classes, const std::vector<std::string> &lines);

#endif
