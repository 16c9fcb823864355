/*
 * Runs a feed from standard input, as the program `select` does, and prints the same lines: the
 * records by mr74_record, their stages by mr74_step.
 */
#include "mr74.h"

#include <stdio.h>
#include <stdlib.h>

static const char *const names[] = {"reset", "open", "pitch", "pulses", "gain", "filter", "lag"};
static const int fields[] = {0, 1, 4, 2, 3, 0, 3};

static void print(size_t number, const mr74_step_answer *answer, const int16_t *words)
{
    if (answer->number != MR74_ACCEPTED) {
        printf("%zu refused %u %s%llu\n", number, answer->number, answer->negative ? "-" : "",
               (unsigned long long)answer->magnitude);
        return;
    }
    const int32_t told[] = {answer->first, answer->second, answer->third, answer->fourth};
    printf("%zu %s", number, names[answer->line]);
    for (int i = 0; i < fields[answer->line]; i++)
        printf(" %d", told[i]);
    for (int i = 0; answer->line == 5 && i < MR74_FILTER_WORDS; i++)
        printf(" %d", words[i]);
    printf("\n");
}

/* All of standard input. */
static uint8_t *read_all(size_t *length)
{
    size_t room = 1 << 16;
    uint8_t *bytes = malloc(room);
    *length = 0;
    while (bytes != NULL) {
        size_t got = fread(bytes + *length, 1, room - *length, stdin);
        *length += got;
        if (got == 0)
            return bytes;
        if (*length == room) {
            room *= 2;
            bytes = realloc(bytes, room);
        }
    }
    return NULL;
}

int main(void)
{
    size_t length;
    uint8_t *feed = read_all(&length);
    if (feed == NULL)
        return 2;
    int16_t history[MR74_HISTORY] = {0}, words[MR74_FILTER_WORDS] = {0};
    mr74_pitch_state searcher = mr74_fresh_pitch(), reader = mr74_fresh_pitch();
    size_t number = 0, at = 0;
    mr74_record_answer record = mr74_record(feed, length, at);
    printf("mr74 select\n");
    while (record.kind != MR74_END) {
        mr74_step_answer answer = mr74_step(feed, length, at, searcher, reader, history,
                                            MR74_HISTORY, words, MR74_FILTER_WORDS);
        print(++number, &answer, words);
        /* After a bad kind, or a body that is not all there, no record can be found. */
        if (record.number != MR74_ACCEPTED)
            break;
        searcher = mr74_searcher_after(&answer);
        reader = mr74_reader_after(&answer);
        at = record.from + record.length;
        record = mr74_record(feed, length, at);
    }
    free(feed);
    return 0;
}
