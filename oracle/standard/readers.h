/* Two readers of a feed's records beside the published Rust: the quoted standard (standard.c) and
 * the package's own code (package.cpp). A reader gets what a record holds and the state before it,
 * and answers with the numbers of `select`'s line. Records that are refused never reach it. */
#ifndef READERS_H
#define READERS_H

#include <stdint.h>

#ifdef __cplusplus
extern "C" {
#endif

enum { SUBFRAME = 40, HISTORY = 143, HALF_FRAME = 80, PAST = 154, ORDER = 10, GAINS = 7 };

struct pitch_call {
    int16_t previous, subframe;
    int16_t excitation[PAST + SUBFRAME], target[SUBFRAME], impulse[SUBFRAME];
    int16_t lags[2];
};

struct pulse_call {
    int16_t target[SUBFRAME], impulse[SUBFRAME], lag, gain;
};

struct gain_call {
    int16_t target[SUBFRAME], adaptive[SUBFRAME], filtered[SUBFRAME];
    int16_t exponent, fraction, limit;
};

struct filter_call {
    int16_t speech[ORDER + SUBFRAME], coefficients[ORDER + 1], quantized[ORDER + 1];
    int16_t error[ORDER], weighting[ORDER];
};

struct lag_call {
    int16_t previous, subframe, index;
};

/* The resonance watch, and whether the spectrum that it saw last was resonant. */
struct watch_state {
    int16_t resonant, count, gains[GAINS];
};

/* A call on the watch: of a spectrum, or of a pitch gain. */
struct watch_call {
    struct watch_state state;
    int16_t spectrum[ORDER], gain;
};

struct answer {
    int count;
    int32_t fields[4 * SUBFRAME];
};

struct reader {
    const char *name;
    void (*open)(const int16_t words[HISTORY + HALF_FRAME], struct answer *answer);
    void (*pitch)(const struct pitch_call *call, struct answer *answer);
    void (*pulses)(const struct pulse_call *call, struct answer *answer);
    void (*gain)(const struct gain_call *call, struct answer *answer);
    void (*filter)(const struct filter_call *call, struct answer *answer);
    void (*lag)(const struct lag_call *call, struct answer *answer);
    /* Of the watch: made fresh, a spectrum seen, a pitch gain limited, the row's gain stored. */
    void (*fresh)(const struct watch_call *call, struct answer *answer);
    void (*spectrum)(const struct watch_call *call, struct answer *answer);
    void (*limit)(const struct watch_call *call, struct answer *answer);
    void (*commit)(const struct watch_call *call, struct answer *answer);
};

extern const struct reader quoted_reader, package_reader;

/* Where the package leaves the quoted standard: the first function whose answers differ on the same
 * arguments, and the operator that clips first in the quoted one. */
const char *why_open(const int16_t words[HISTORY + HALF_FRAME]);
const char *why_pitch(const struct pitch_call *call);
const char *why_pulses(const struct pulse_call *call);
const char *why_gain(const struct gain_call *call);
const char *why_filter(const struct filter_call *call);
const char *why_spectrum(const struct watch_call *call);

#ifdef __cplusplus
}
#endif

#endif
