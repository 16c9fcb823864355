/* For the examples: a frame of a sound, with 154 words of its past. */
#ifndef SOUND_H
#define SOUND_H

#include "mr74.h"

enum { PAST = MR74_EXCITATION - MR74_SUBFRAME, SOUND = PAST + MR74_FRAME };

typedef struct {
    int16_t pulses[SOUND];
    int16_t samples[SOUND];         /* the pulses behind a filter with one pole .. */
    int16_t impulse[MR74_SUBFRAME]; /* .. and its impulse response */
} sound;

/* With a pulse every so many samples. */
static inline sound sound_of(int period)
{
    sound made;
    int16_t sample = 0, response = 4096;
    for (int i = 0; i < SOUND; i++) {
        made.pulses[i] = (i - PAST) % period == 0 ? 8000 : 0;
        sample = (int16_t)(sample * 3 / 4 + made.pulses[i]);
        made.samples[i] = sample;
    }
    for (int i = 0; i < MR74_SUBFRAME; i++) {
        made.impulse[i] = response;
        response = (int16_t)(response * 3 / 4);
    }
    return made;
}

/* What is searched on in a subframe, 1 to 4. */
static inline mr74_subframe_lists lists_of(const sound *made, int subframe)
{
    int from = MR74_SUBFRAME * (subframe - 1);
    mr74_subframe_lists lists = {made->pulses + from,         MR74_EXCITATION,
                                 made->samples + PAST + from, MR74_SUBFRAME,
                                 made->impulse,               MR74_SUBFRAME};
    return lists;
}

#endif
