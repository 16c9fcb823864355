/*
 * Twenty-four channels on one searcher: sixteen handsets and eight announcement players. All of
 * them wait and are served in turn; then two, one with a subframe out of turn; and one that waits
 * before every step does not keep another waiting. Prints marks, tellings and what is served.
 */
#include "mr74.h"
#include "sound.h"

#include <stdio.h>

/* The list, and the last served number: both are the caller's to keep. */
static mr74_channel channels[MR74_CHANNELS];
static size_t last = MR74_NO_CHANNEL;

/* On a channel a pulse is heard every so many samples, 32 to 124, its open-loop lag. */
static int period(size_t channel)
{
    return (int)(32 + 4 * channel);
}

static void refused(unsigned number, uint64_t magnitude)
{
    printf("refused %u %llu\n", number, (unsigned long long)magnitude);
}

static const char *end(const mr74_channel *channel)
{
    return channel->searcher.upper == MR74_PLAYER_LAG ? "player" : "handset";
}

/* The channel that was marked or told, or the refusal. */
static void print(const char *what, const mr74_channel_answer *answer)
{
    printf("%s ", what);
    if (answer->number == MR74_ACCEPTED)
        printf("%zu\n", answer->channel);
    else
        refused(answer->number, answer->magnitude);
}

static void mark(size_t channel)
{
    mr74_channel_answer marked = mr74_mark(channels, MR74_CHANNELS, channel);
    print("mark", &marked);
}

/* The channel that is next in the first so many of the list. */
static size_t next(size_t count)
{
    mr74_channel_answer told = mr74_next(channels, count, last);
    print("next", &told);
    return told.channel;
}

/* A step with what is heard on a channel, which has to be the one that is next. */
static void serve(size_t channel, uint8_t subframe)
{
    sound heard = sound_of(period(channel));
    mr74_subframe_lists lists = lists_of(&heard, subframe);
    uint16_t lag = (uint16_t)period(channel);
    mr74_service_answer served =
        mr74_serve(channels, MR74_CHANNELS, last, lists.excitation_q0, lists.excitation_length,
                   lists.target_q0, lists.target_length, lists.impulse_q12, lists.impulse_length,
                   lag, lag, subframe);
    last = served.last;
    printf("serve ");
    if (served.channel != MR74_NO_CHANNEL)
        printf("%zu %s ", served.channel, end(&channels[served.channel]));
    if (served.number == MR74_ACCEPTED)
        printf("pitch %u %u %d\n", served.pitch.index, served.pitch.samples,
               served.pitch.fraction);
    else
        refused(served.number, served.magnitude);
}

int main(void)
{
    /* Every third channel is a player's. */
    for (size_t i = 0; i < MR74_CHANNELS; i++) {
        channels[i].searcher = i % 3 == 2 ? mr74_fresh_player() : mr74_fresh_pitch();
        channels[i].waiting = 0;
    }
    /* None waits yet. No list has 0 channels, and none of 24 has a channel 24. */
    next(MR74_CHANNELS);
    serve(0, 1);
    next(0);
    mark(MR74_CHANNELS);

    /* In whichever order they are marked, the list's is that of the steps. A player refuses 124. */
    for (size_t i = MR74_CHANNELS; i > 0; i--)
        mark(i - 1);
    for (size_t i = 0; i < MR74_CHANNELS; i++)
        serve(next(MR74_CHANNELS), 1);

    /* Channel 7 expects subframe 2: its search is refused, and then 20 is next though 7 waits. */
    mark(20);
    mark(7);
    serve(next(MR74_CHANNELS), 4);
    mark(7);
    serve(next(MR74_CHANNELS), 2);
    serve(next(MR74_CHANNELS), 2);

    /* Channel 12 is marked before every step, and 5, which is marked once, has its turn. */
    mark(5);
    mark(12);
    serve(next(MR74_CHANNELS), 2);
    mark(12);
    serve(next(MR74_CHANNELS), 2);
    mark(12);
    serve(next(MR74_CHANNELS), 3);
    return 0;
}
