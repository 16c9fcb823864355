/* The quoted standard as a reader of records.
 *
 * quoted.c is what extract.py takes out of the package at build time. Its functions are renamed,
 * since the package has the same names. */
#include <string.h>

#include "operators.h"
#include "quoted.h"
#include "readers.h"

Flag Overflow;
long clippings, awaited_clipping = 1;
struct clipping told_clipping;

void await_clipping(long passed_over)
{
    clippings = 0;
    awaited_clipping = passed_over + 1;
    told_clipping.line = 0;
}

long clippings_so_far(void)
{
    return clippings;
}

const char *clipping_operator(void)
{
    return told_clipping.operator_name;
}

int clipping_line(void)
{
    return told_clipping.line;
}

/* ---- what the texts expect around them */
#define M 10
#define MP1 11
#define L_SUBFR 40
#define L_CODE 40
#define NB_TRACK 5
#define STEP 5
#define NB_PULSE 4
#define L_FRAME 160
#define L_FRAME_BY2 80
#define PIT_MIN 20
#define PIT_MIN_MR122 18
#define PIT_MAX 143
#define L_INTER_SRCH 4
#define UP_SAMP_MAX 6
#define THRESHOLD 27853
#define GP_CLIP 15565
#define N_FRAME 7
#define VQ_SIZE_HIGHRATES 128
#define VQ_SIZE_LOWRATES 64
#define _1_2 16384
#define _1_4 8192
#define _1_8 4096
#define _1_16 2048

enum Mode { MR475, MR515, MR59, MR67, MR74, MR795, MR102, MR122, MRDTX, N_MODES };

typedef struct vadState vadState;

typedef struct {
    Word16 T0_prev_subframe;
} Pitch_frState;

typedef struct {
    Word16 count;
    Word16 gp[N_FRAME];
} tonStabState;

/* Tables, which the package has as symbols. */
extern const Word16 inv_sqrt_tbl[], pow2_tbl[], inter_6[], gray[], table_gain_highrates[];

/* Weights and counters of operations, DTX and the 12.2 kbit/s rate: never reached at 7.4 kbit/s. */
#define move16()
#define move32()
#define vad_tone_detection(state, max, energy)
#define vad_tone_detection_update(state, one)
#define hp_max(corr, signal, length, longest, shortest, value)
#define vad_complex_detection_update(state, value)
#define Enc_lag6(lag, fraction, start, relative) 0
#define q_gain_pitch(mode, limit, gain, candidates, index) 0

/* Not quoted: a list's words copied, or set to 0. */
#define Copy(from, to, length) memmove((to), (from), (length) * sizeof(Word16))
#define Set_zero(list, length) memset((list), 0, (length) * sizeof(Word16))

#define Inv_sqrt quoted_Inv_sqrt
#define Pow2 quoted_Pow2
#define Weight_Ai quoted_Weight_Ai
#define Residu quoted_Residu
#define Syn_filt quoted_Syn_filt
#define comp_corr quoted_comp_corr
#define Lag_max quoted_Lag_max
#define Pitch_ol quoted_Pitch_ol
#define Convolve quoted_Convolve
#define Norm_Corr quoted_Norm_Corr
#define Interpol_3or6 quoted_Interpol_3or6
#define searchFrac quoted_searchFrac
#define getRange quoted_getRange
#define Enc_lag3 quoted_Enc_lag3
#define Pitch_fr quoted_Pitch_fr
#define cor_h_x quoted_cor_h_x
#define cor_h_x2 quoted_cor_h_x2
#define set_sign quoted_set_sign
#define cor_h quoted_cor_h
#define G_pitch quoted_G_pitch
#define calc_filt_energies quoted_calc_filt_energies
#define code_4i40_17bits quoted_code_4i40_17bits
#define search_4i40 quoted_search_4i40
#define build_code quoted_build_code
#define Qua_gain quoted_Qua_gain
#define Dec_lag3 quoted_Dec_lag3
#define subframePreProc quoted_subframePreProc
#define ton_stab_reset quoted_ton_stab_reset
#define check_lsp quoted_check_lsp
#define check_gp_clipping quoted_check_gp_clipping
#define update_gp_clipping quoted_update_gp_clipping

/* Called above their text. */
void cor_h_x2(Word16 *, Word16 *, Word16 *, Word16, Word16, Word16);
Word16 build_code(Word16 *, Word16 *, Word16 *, Word16 *, Word16 *, Word16 *, const Word16 *);

#define static /* package.cpp calls them too */
#include "quoted.c"
#undef static

/* ---- the functions by which package.cpp finds where an answer parts */

int16_t quoted_lag_max(int32_t *correlations, int16_t *signal, int16_t last, int16_t first,
                       int16_t *value)
{
    return Lag_max(NULL, correlations, signal, 0, 0, HALF_FRAME, last, first, value, 0);
}

int16_t quoted_g_pitch(int16_t *target, int16_t *adaptive, int16_t *correlations)
{
    return G_pitch(MR74, target, adaptive, correlations, L_SUBFR);
}

void quoted_energies(int16_t *target, int16_t *adaptive, int16_t *filtered, int16_t *correlations,
                     int16_t *fractions, int16_t *exponents)
{
    Word16 fraction, exponent;
    calc_filt_energies(MR74, target, target, adaptive, filtered, correlations, fractions, exponents,
                       &fraction, &exponent);
}

void quoted_sharpen(int16_t *impulse, int16_t lag, int16_t gain)
{
    Word16 doubled = shl(gain, 1);
    for (int i = lag; i < SUBFRAME; i++)
        impulse[i] = add(impulse[i], mult(impulse[i - lag], doubled));
}

const int16_t *quoted_gamma(int which)
{
    return which == 1 ? gamma1 : gamma2;
}

/* ---- the reader */

static void quoted_open(const int16_t words[], struct answer *answer)
{
    Word16 signal[HISTORY + HALF_FRAME];
    memcpy(signal, words, sizeof signal);
    answer->count = 1;
    answer->fields[0] = Pitch_ol(NULL, MR74, &signal[HISTORY], PIT_MIN, PIT_MAX, HALF_FRAME, 0, 0);
}

static void quoted_pitch(const struct pitch_call *given, struct answer *answer)
{
    struct pitch_call call = *given;
    Pitch_frState state = {call.previous};
    Word16 fraction, thirds, index;
    Word16 lag = Pitch_fr(&state, MR74, call.lags, &call.excitation[PAST], call.target, call.impulse,
                          L_SUBFR, (call.subframe - 1) * L_SUBFR, &fraction, &thirds, &index);
    answer->count = 3;
    answer->fields[0] = index;
    answer->fields[1] = lag;
    answer->fields[2] = fraction;
}

static void quoted_pulses(const struct pulse_call *given, struct answer *answer)
{
    struct pulse_call call = *given;
    Word16 impulse[2 * L_CODE] = {0}, innovation[L_CODE], filtered[L_CODE], signs;
    memcpy(&impulse[L_CODE], call.impulse, sizeof call.impulse);
    answer->count = 2;
    answer->fields[0] = code_4i40_17bits(call.target, &impulse[L_CODE], call.lag, call.gain,
                                         innovation, filtered, &signs, gray);
    answer->fields[1] = signs;
}

static void quoted_gain(const struct gain_call *given, struct answer *answer)
{
    struct gain_call call = *given;
    Word16 correlations[4], fractions[5], exponents[5], pitch, code, unused[2];
    quoted_g_pitch(call.target, call.adaptive, correlations);
    quoted_energies(call.target, call.adaptive, call.filtered, correlations, fractions, exponents);
    Word16 index = Qua_gain(MR74, call.exponent, call.fraction, fractions, exponents, call.limit,
                            &pitch, &code, &unused[0], &unused[1]);
    answer->count = 3;
    answer->fields[0] = index;
    answer->fields[1] = table_gain_highrates[4 * index];
    answer->fields[2] = table_gain_highrates[4 * index + 1];
}

static void quoted_filter(const struct filter_call *given, struct answer *answer)
{
    struct filter_call call = *given;
    Word16 zero[L_SUBFR] = {0}, weighted[L_SUBFR + MP1] = {0}, excitation[L_SUBFR];
    Word16 impulse[L_SUBFR], target[L_SUBFR], residual[L_SUBFR], error[M + L_SUBFR];
    memcpy(error, call.error, sizeof call.error);
    subframePreProc(MR74, gamma1, gamma1_12k2, gamma2, call.coefficients, call.quantized,
                    &call.speech[M], error, call.weighting, zero, weighted, excitation, impulse,
                    target, residual, &error[M]);
    answer->count = 4 * L_SUBFR;
    for (int i = 0; i < L_SUBFR; i++) {
        answer->fields[i] = residual[i];
        answer->fields[L_SUBFR + i] = impulse[i];
        answer->fields[2 * L_SUBFR + i] = target[i];
        answer->fields[3 * L_SUBFR + i] = error[M + i];
    }
}

static void quoted_lag(const struct lag_call *call, struct answer *answer)
{
    Word16 first, last, lag, fraction;
    lag_window(MR74, call->previous, &first, &last);
    Dec_lag3(call->index, first, last, call->subframe % 2 == 0, call->previous, &lag, &fraction, 0);
    answer->count = 2;
    answer->fields[0] = lag;
    answer->fields[1] = fraction;
}

static tonStabState watch_of(const struct watch_call *call)
{
    tonStabState state = {.count = call->state.count};
    memcpy(state.gp, call->state.gains, sizeof state.gp);
    return state;
}

static void tell_gains(const tonStabState *state, struct answer *answer)
{
    for (int i = 0; i < N_FRAME; i++)
        answer->fields[answer->count++] = state->gp[i];
}

static void quoted_fresh(const struct watch_call *call, struct answer *answer)
{
    tonStabState state = watch_of(call);
    ton_stab_reset(&state);
    answer->count = 1;
    answer->fields[0] = state.count;
    tell_gains(&state, answer);
}

static void quoted_spectrum(const struct watch_call *call, struct answer *answer)
{
    tonStabState state = watch_of(call);
    Word16 spectrum[M];
    memcpy(spectrum, call->spectrum, sizeof spectrum);
    answer->count = 2;
    answer->fields[0] = check_lsp(&state, spectrum);
    answer->fields[1] = state.count;
}

static void quoted_limit(const struct watch_call *call, struct answer *answer)
{
    tonStabState state = watch_of(call);
    Word16 gain = call->gain, limit;
    gain_limit(&state, MR74, call->state.resonant, &gain, NULL, &limit);
    answer->count = 2;
    answer->fields[0] = limit;
    answer->fields[1] = gain;
}

static void quoted_commit(const struct watch_call *call, struct answer *answer)
{
    tonStabState state = watch_of(call);
    update_gp_clipping(&state, call->gain);
    answer->count = 0;
    tell_gains(&state, answer);
}

const struct reader quoted_reader = {
    "standard",   quoted_open,  quoted_pitch,    quoted_pulses, quoted_gain,   quoted_filter,
    quoted_lag,   quoted_fresh, quoted_spectrum, quoted_limit,  quoted_commit,
};
