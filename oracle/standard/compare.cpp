/* Compares three readers of a feed, record by record: the published Rust, whose lines are given, the
 * quoted standard and the package.
 *
 *   compare lines READER FEED         what select would print, were it this reader (standard, package)
 *   compare compare NAME FEED LINES   counts by kind, the classes of the package's differences, and
 *                                     of the watch the cases met; tab-separated, for report.py
 *   compare smallest FEED LINES ..    the smallest input found of each class, as text
 *   compare feed CLASSES OUT          the inputs of a text of classes, as a feed
 *   compare classes CLASSES LINES     holds the three readers' answers to those of that text
 *
 * In a comparison every reader starts each record from the state that the Rust's answers leave, so
 * that one difference is not counted twice. */
#include <cstring>
#include <map>
#include <sstream>

#include "cases.h"
#include "feed.h"
#include "smallest.h"

namespace {

/* The Rust's lines. Their title tells whether the feed may have records of the watch. */
struct Lines {
    std::vector<std::string> lines;
    int kinds;
};

Lines lines_of(const std::string &file)
{
    std::ifstream stream(file);
    Lines told = {};
    std::string line;
    if (std::getline(stream, line))
        told.kinds = line == "mr74 select" ? SELECTED : line == "mr74 watched" ? KINDS : 0;
    if (told.kinds == 0) {
        std::cerr << file << ": no lines of select\n";
        exit(2);
    }
    while (std::getline(stream, line))
        told.lines.push_back(line.substr(line.find(' ') + 1));
    return told;
}

/* The numbers that a line of the Rust tells, as far as a state is made of them. */
answer numbers_in(const std::string &line)
{
    std::istringstream stream(line);
    std::string name;
    answer told = {};
    stream >> name;
    while (told.count < 1 + GAINS && stream >> told.fields[told.count])
        told.count++;
    return told;
}

int print_lines(const std::string &name, const std::string &file)
{
    const reader &reader = name == package_reader.name ? package_reader : quoted_reader;
    auto bytes = read_file(file);
    Reading reading{bytes, SELECTED};
    Record record;
    Refusal refusal;
    State state;
    Call call;
    std::cout << "mr74 select\n";
    for (long number = 1; reading.next(record, refusal); number++) {
        if (!refusal.number)
            refusal = call_of(record, state, call);
        std::string line = line_of(refusal);
        if (!refusal.number) {
            answer told = answer_of(reader, call);
            line = line_of(call.kind, told);
            advance(state, call, told.fields);
        }
        std::cout << number << ' ' << line << '\n';
    }
    return 0;
}

struct Counts {
    long compared = 0, standard = 0, package = 0;
};

/* Goes through a feed; `each` gets every call, and `differing` every one that the package answers
 * otherwise, with its class. */
template <typename Each, typename Differing>
std::map<std::string, Counts> compared(const std::string &feed, const std::string &file, Each each,
                                       Differing differing)
{
    auto bytes = read_file(feed);
    auto [lines, kinds] = lines_of(file);
    Reading reading{bytes, kinds};
    Record record;
    Refusal refusal;
    State state;
    Call call;
    std::map<std::string, Counts> counts;
    size_t number = 0;
    for (; reading.next(record, refusal); number++) {
        if (number == lines.size()) {
            std::cerr << feed << ": more records than lines\n";
            exit(2);
        }
        const std::string &rust = lines[number];
        if (!refusal.number)
            refusal = call_of(record, state, call);
        if (refusal.number) {
            Counts &count = counts["refused"];
            bool differs = line_of(refusal) != rust;
            count.compared++;
            count.standard += differs;
            count.package += differs;
            continue;
        }
        Counts &count = counts[NAMES[call.kind]];
        count.compared++;
        each(call);
        answer told = answer_of(quoted_reader, call), other = answer_of(package_reader, call);
        if (line_of(call.kind, told) != rust) {
            count.standard++;
            std::cerr << "standard " << feed << " record " << number + 1 << ": "
                      << line_of(call.kind, told).substr(0, 80) << ", Rust: " << rust.substr(0, 80)
                      << '\n';
        }
        if (line_of(call.kind, other) != rust) {
            count.package++;
            differing(call, why(call));
        }
        advance(state, call, numbers_in(rust).fields);
    }
    if (number != lines.size()) {
        std::cerr << feed << ": more lines than records\n";
        exit(2);
    }
    return counts;
}

int print_counts(const std::string &name, const std::string &feed, const std::string &lines)
{
    std::map<std::pair<std::string, std::string>, long> classes;
    Cases cases;
    auto counts = compared(
        feed, lines, [&](const Call &call) { cases.count(call); },
        [&](const Call &call, const char *where) { classes[{NAMES[call.kind], where}]++; });
    for (auto &[kind, count] : counts)
        std::cout << "count\t" << name << '\t' << kind << '\t' << count.compared << '\t'
                  << count.standard << '\t' << count.package << '\n';
    for (auto &[kind, count] : classes)
        std::cout << "class\t" << name << '\t' << kind.first << '\t' << kind.second << '\t' << count
                  << '\n';
    cases.print(std::cout, name);
    return 0;
}

/* So many inputs of a class are taken from a feed and made smaller; the smallest is told. */
const size_t TRIED = 24;

int print_smallest(const std::vector<std::string> &files)
{
    std::map<std::string, std::vector<Call>> found;
    for (size_t i = 0; i + 1 < files.size(); i += 2) {
        std::map<std::string, size_t> taken;
        compared(
            files[i], files[i + 1], [](const Call &) {},
            [&](const Call &call, const char *where) {
                std::string name = std::string(NAMES[call.kind]) + ": " + where;
                if (taken[name]++ < TRIED)
                    found[name].push_back(call);
            });
    }
    for (auto &[name, calls] : found)
        print_class(std::cout, name, smallest(calls));
    return 0;
}

int usage()
{
    std::cerr << "usage: see the head of compare.cpp\n";
    return 2;
}

} // namespace

int main(int count, char **words)
{
    std::vector<std::string> w(words + 1, words + count);
    std::ios::sync_with_stdio(false);
    if (w.size() == 3 && w[0] == "lines")
        return print_lines(w[1], w[2]);
    if (w.size() == 4 && w[0] == "compare")
        return print_counts(w[1], w[2], w[3]);
    if (w.size() > 2 && w.size() % 2 == 1 && w[0] == "smallest")
        return print_smallest({w.begin() + 1, w.end()});
    if (w.size() == 3 && w[0] == "feed")
        return write_classes(w[1], w[2]);
    if (w.size() == 3 && w[0] == "classes")
        return check_classes(w[1], lines_of(w[2]).lines);
    return usage();
}
