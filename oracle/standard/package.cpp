/* The package's own code as a reader of records, and where it leaves the quoted standard.
 *
 * Its files are compiled as they are. Three of them are taken in here, not linked, since the
 * functions that are compared one by one are local to them. */
#include "pitch_ol.cpp"

#include "pitch_fr.cpp"

#include "c4_17pf.cpp"

#include "calc_en.h"
#include "dec_lag3.h"
#include "g_pitch.h"
#include "get_const_tbls.h"
#include "qua_gain.h"
#include "residu.h"
#include "spreproc.h"
#include "syn_filt.h"
#include "ton_stab.h"
#include "weight_a.h"

#include <stdio.h>
#include <string.h>

#include "quoted.h"
#include "readers.h"

extern "C" {
extern const Word16 gray[], table_gain_highrates[];
}

namespace {

/* ---- the reader */

void open(const int16_t *words, answer *told)
{
    Word16 signal[HISTORY + HALF_FRAME];
    Flag overflow = 0;
    memcpy(signal, words, sizeof signal);
    told->count = 1;
    told->fields[0] = Pitch_ol(NULL, MR74, &signal[HISTORY], PIT_MIN, PIT_MAX, HALF_FRAME, 0, 0,
                               &overflow);
}

void pitch(const pitch_call *given, answer *told)
{
    pitch_call call = *given;
    Pitch_frState state = {call.previous};
    Word16 fraction, thirds, index;
    Flag overflow = 0;
    Word16 lag = Pitch_fr(&state, MR74, call.lags, &call.excitation[PAST], call.target, call.impulse,
                          SUBFRAME, (call.subframe - 1) * SUBFRAME, &fraction, &thirds, &index,
                          &overflow);
    told->count = 3;
    told->fields[0] = index;
    told->fields[1] = lag;
    told->fields[2] = fraction;
}

void pulses(const pulse_call *given, answer *told)
{
    pulse_call call = *given;
    Word16 impulse[2 * SUBFRAME] = {0}, innovation[SUBFRAME], filtered[SUBFRAME], signs;
    Flag overflow = 0;
    memcpy(&impulse[SUBFRAME], call.impulse, sizeof call.impulse);
    told->count = 2;
    told->fields[0] = code_4i40_17bits(call.target, &impulse[SUBFRAME], call.lag, call.gain,
                                       innovation, filtered, &signs, gray, &overflow);
    told->fields[1] = signs;
}

Word16 row_of(const gain_call &call, Word16 fractions[], Word16 exponents[])
{
    CommonAmrTbls tables = {};
    tables.table_gain_highrates_ptr = table_gain_highrates;
    Word16 pitch, code, unused[2];
    Flag overflow = 0;
    return Qua_gain(MR74, call.exponent, call.fraction, fractions, exponents, call.limit, &pitch,
                    &code, &unused[0], &unused[1], &tables, &overflow);
}

void energies(gain_call &call, Word16 correlations[], Word16 fractions[], Word16 exponents[])
{
    Word16 fraction, exponent;
    Flag overflow = 0;
    calc_filt_energies(MR74, call.target, call.target, call.adaptive, call.filtered, correlations,
                       fractions, exponents, &fraction, &exponent, &overflow);
}

void gain(const gain_call *given, answer *told)
{
    gain_call call = *given;
    Word16 correlations[4], fractions[5], exponents[5];
    Flag overflow = 0;
    G_pitch(MR74, call.target, call.adaptive, correlations, SUBFRAME, &overflow);
    energies(call, correlations, fractions, exponents);
    Word16 index = row_of(call, fractions, exponents);
    told->count = 3;
    told->fields[0] = index;
    told->fields[1] = table_gain_highrates[4 * index];
    told->fields[2] = table_gain_highrates[4 * index + 1];
}

void filter(const filter_call *given, answer *told)
{
    filter_call call = *given;
    Word16 zero[SUBFRAME] = {0}, weighted[SUBFRAME + ORDER + 1] = {0}, excitation[SUBFRAME];
    Word16 impulse[SUBFRAME], target[SUBFRAME], residual[SUBFRAME], error[ORDER + SUBFRAME];
    memcpy(error, call.error, sizeof call.error);
    subframePreProc(MR74, quoted_gamma(1), quoted_gamma(1), quoted_gamma(2), call.coefficients,
                    call.quantized, &call.speech[ORDER], error, call.weighting, zero, weighted,
                    excitation, impulse, target, residual, &error[ORDER]);
    told->count = 4 * SUBFRAME;
    for (int i = 0; i < SUBFRAME; i++) {
        told->fields[i] = residual[i];
        told->fields[SUBFRAME + i] = impulse[i];
        told->fields[2 * SUBFRAME + i] = target[i];
        told->fields[3 * SUBFRAME + i] = error[ORDER + i];
    }
}

/* The package has the window of the lag reader inside its decoder of frames; getRange is the same
 * rule, and it is called in its place. */
void lag(const lag_call *call, answer *told)
{
    Word16 first, last, whole, fraction;
    Flag overflow = 0;
    getRange(call->previous, 5, 9, PIT_MIN, PIT_MAX, &first, &last, &overflow);
    Dec_lag3(call->index, first, last, call->subframe % 2 == 0, call->previous, &whole, &fraction, 0,
             &overflow);
    told->count = 2;
    told->fields[0] = whole;
    told->fields[1] = fraction;
}

tonStabState watch_of(const watch_call &call)
{
    static_assert(N_FRAME == GAINS, "the gains of a watch");
    tonStabState state = {};
    state.count = call.state.count;
    memcpy(state.gp, call.state.gains, sizeof state.gp);
    return state;
}

void tell_gains(const tonStabState &state, answer *told)
{
    for (Word16 gain : state.gp)
        told->fields[told->count++] = gain;
}

void fresh(const watch_call *call, answer *told)
{
    tonStabState state = watch_of(*call);
    ton_stab_reset(&state);
    told->count = 1;
    told->fields[0] = state.count;
    tell_gains(state, told);
}

void spectrum(const watch_call *call, answer *told)
{
    tonStabState state = watch_of(*call);
    Word16 words[ORDER];
    Flag overflow = 0;
    memcpy(words, call->spectrum, sizeof words);
    told->count = 2;
    told->fields[0] = check_lsp(&state, words, &overflow);
    told->fields[1] = state.count;
}

/* The package chooses the limit inside its cl_ltp, which searches the lag too; that choice is written
 * again here, about its check_gp_clipping. */
void limit(const watch_call *call, answer *told)
{
    tonStabState state = watch_of(*call);
    Flag overflow = 0;
    bool limited = call->state.resonant != 0 && (Word32)call->gain > GP_CLIP
                   && check_gp_clipping(&state, call->gain, &overflow) != 0;
    told->count = 2;
    told->fields[0] = limited ? GP_CLIP : MAX_16;
    told->fields[1] = limited ? GP_CLIP : call->gain;
}

void commit(const watch_call *call, answer *told)
{
    tonStabState state = watch_of(*call);
    Flag overflow = 0;
    update_gp_clipping(&state, call->gain, &overflow);
    told->count = 0;
    tell_gains(state, told);
}

/* ---- where it leaves the standard */

template <typename T, int N> bool same(const T (&left)[N], const T (&right)[N])
{
    return memcmp(left, right, sizeof left) == 0;
}

/* The function, and what clips first in the quoted one since `await_clipping`. */
const char *told(const char *function)
{
    static char text[120];
    int line = clipping_line();
    if (line == 0) {
        snprintf(text, sizeof text, "%s, nothing clips", function);
        return text;
    }
    const place *found = quoted_places;
    while (found[1].line <= line)
        found++;
    snprintf(text, sizeof text, "%s, %s clips at line %d of %s", function, clipping_operator(),
             line - found->line + 1, found->name);
    return text;
}

template <typename T, int N> int first_difference(const T (&left)[N], const T (&right)[N])
{
    int place = 0;
    while (place < N - 1 && left[place] == right[place])
        place++;
    return place;
}

/* The function, and what clips first in the quoted one where it makes the first place that differs.
 * `make(n)` makes the first n places. */
template <typename Make> const char *told_at(const char *function, int place, Make make)
{
    await_clipping(0);
    make(place);
    await_clipping(clippings_so_far());
    make(place + 1);
    return told(function);
}

} // namespace

extern "C" {

const reader package_reader = {"package", open,  pitch,    pulses, gain,  filter,
                               lag,       fresh, spectrum, limit,  commit};

const char *why_open(const int16_t *words)
{
    int64_t energy = 0;
    for (int i = 0; i < HISTORY + HALF_FRAME; i++)
        energy += 2 * (int64_t)words[i] * words[i];
    Word16 scaled[HISTORY + HALF_FRAME], *signal = &scaled[HISTORY];
    for (int i = 0; i < HISTORY + HALF_FRAME; i++)
        scaled[i] = energy > MAX_32 ? words[i] >> 3 : energy < 1048576 ? words[i] * 8 : words[i];

    Word32 left[PIT_MAX + 1] = {0}, right[PIT_MAX + 1] = {0};
    Flag overflow = 0;
    await_clipping(0);
    quoted_comp_corr(signal, HALF_FRAME, PIT_MAX, PIT_MIN, &left[PIT_MAX]);
    comp_corr(signal, HALF_FRAME, PIT_MAX, PIT_MIN, &right[PIT_MAX]);
    if (!same(left, right))
        return told("comp_corr");

    const Word16 ends[3][2] = {{143, 80}, {79, 40}, {39, 20}};
    for (auto end : ends) {
        Word16 value, other;
        await_clipping(0);
        Word16 found = quoted_lag_max(&left[PIT_MAX], signal, end[0], end[1], &value);
        if (found != Lag_max(NULL, &left[PIT_MAX], signal, 0, 0, HALF_FRAME, end[0], end[1], &other,
                             0, &overflow)
            || value != other)
            return told("Lag_max");
    }
    await_clipping(0);
    return told("Pitch_ol");
}

const char *why_pitch(const pitch_call *given)
{
    pitch_call call = *given;
    Word16 *excitation = &call.excitation[PAST], first, last, left[SUBFRAME], right[SUBFRAME];
    Flag overflow = 0;
    if (call.subframe % 2 == 1)
        quoted_getRange(call.lags[call.subframe / 2], 3, 6, PIT_MIN, PIT_MAX, &first, &last);
    else
        quoted_getRange(call.previous, 5, 9, PIT_MIN, PIT_MAX, &first, &last);
    first -= L_INTER_SRCH;
    last += L_INTER_SRCH;

    quoted_Convolve(&excitation[-first], call.impulse, left, SUBFRAME);
    Convolve(&excitation[-first], call.impulse, right, SUBFRAME);
    if (!same(left, right))
        return told_at("Convolve", first_difference(left, right), [&](int n) {
            quoted_Convolve(&excitation[-first], call.impulse, left, n);
        });

    memset(left, 0, sizeof left);
    memset(right, 0, sizeof right);
    await_clipping(0);
    quoted_Norm_Corr(excitation, call.target, call.impulse, SUBFRAME, first, last, left - first);
    Norm_Corr(excitation, call.target, call.impulse, SUBFRAME, first, last, right - first, &overflow);
    if (!same(left, right))
        return told("Norm_Corr");

    await_clipping(0);
    for (Word16 i = first + L_INTER_SRCH; i <= last - L_INTER_SRCH; i++) {
        Word16 lags[2] = {i, i}, fractions[2] = {-2, -2};
        quoted_searchFrac(&lags[0], &fractions[0], 2, left - first, 1);
        searchFrac(&lags[1], &fractions[1], 2, left - first, 1, &overflow);
        if (lags[0] != lags[1] || fractions[0] != fractions[1])
            return told("searchFrac");
    }
    return told("Pitch_fr");
}

const char *why_pulses(const pulse_call *given)
{
    pulse_call call = *given;
    Word16 left[SUBFRAME], right[SUBFRAME], sharp = call.gain << 1;
    Flag overflow = 0;
    memcpy(left, call.impulse, sizeof left);
    memcpy(right, call.impulse, sizeof right);
    await_clipping(0);
    quoted_sharpen(left, call.lag, call.gain);
    for (int i = call.lag; i < SUBFRAME; i++)
        right[i] = add_16(right[i], mult(right[i - call.lag], sharp, &overflow), &overflow);
    if (!same(left, right))
        return "code_4i40_17bits, shl clips";

    Word16 *impulse = left, dn[2][SUBFRAME], dn2[2][SUBFRAME], signs[2][SUBFRAME];
    await_clipping(0);
    quoted_cor_h_x(impulse, call.target, dn[0], 1);
    cor_h_x(impulse, call.target, dn[1], 1, &overflow);
    if (!same(dn[0], dn[1]))
        return told("cor_h_x");

    await_clipping(0);
    quoted_set_sign(dn[0], signs[0], dn2[0], 4);
    set_sign(dn[1], signs[1], dn2[1], 4);
    if (!same(dn[0], dn[1]) || !same(signs[0], signs[1]) || !same(dn2[0], dn2[1]))
        return told("set_sign");

    static Word16 tables[2][SUBFRAME][SUBFRAME];
    await_clipping(0);
    quoted_cor_h(impulse, signs[0], tables[0]);
    cor_h(impulse, signs[0], tables[1], &overflow);
    if (!same(tables[0], tables[1]))
        return told("cor_h");

    Word16 places[2][4];
    await_clipping(0);
    quoted_search_4i40(dn[0], dn2[0], tables[0], places[0]);
    search_4i40(dn[0], dn2[0], tables[0], places[1], &overflow);
    if (!same(places[0], places[1]))
        return told("search_4i40");
    await_clipping(0);
    return told("build_code");
}

const char *why_gain(const gain_call *given)
{
    gain_call call = *given;
    Word16 correlations[2][4];
    Flag overflow = 0;
    await_clipping(0);
    quoted_g_pitch(call.target, call.adaptive, correlations[0]);
    G_pitch(MR74, call.target, call.adaptive, correlations[1], SUBFRAME, &overflow);
    auto differ = [&](int i) { return correlations[0][i] != correlations[1][i]; };
    if (differ(0) || differ(1))
        return "G_pitch, the energy";
    if (differ(2))
        return "G_pitch, the correlation";
    if (differ(3))
        return "G_pitch, the correlation's exponent alone";

    Word16 fractions[2][5], exponents[2][5];
    await_clipping(0);
    quoted_energies(call.target, call.adaptive, call.filtered, correlations[0], fractions[0],
                    exponents[0]);
    energies(call, correlations[0], fractions[1], exponents[1]);
    if (!same(fractions[0], fractions[1]) || !same(exponents[0], exponents[1]))
        return told("calc_filt_energies");
    await_clipping(0);
    return told("Qua_gain");
}

const char *why_filter(const filter_call *given)
{
    filter_call call = *given;
    Word16 zero[ORDER] = {0}, weights[2][2][ORDER + 1];
    for (int i = 0; i < 2; i++) {
        await_clipping(0);
        quoted_Weight_Ai(call.coefficients, quoted_gamma(i + 1), weights[i][0]);
        Weight_Ai(call.coefficients, quoted_gamma(i + 1), weights[i][1]);
        if (!same(weights[i][0], weights[i][1]))
            return told("Weight_Ai");
    }

    Word16 input[SUBFRAME] = {0}, left[SUBFRAME], right[SUBFRAME];
    memcpy(input, weights[0][0], sizeof weights[0][0]);
    // Each filter gets what the quoted one before it made; where its answer is the same, no text.
    auto synthesis = [&](Word16 coefficients[], Word16 memory[]) -> const char * {
        quoted_Syn_filt(coefficients, input, left, SUBFRAME, memory, 0);
        Syn_filt(coefficients, input, right, SUBFRAME, memory, 0);
        if (!same(left, right))
            return told_at("Syn_filt", first_difference(left, right), [&](int n) {
                quoted_Syn_filt(coefficients, input, left, n, memory, 0);
            });
        memcpy(input, left, sizeof input);
        return nullptr;
    };
    Word16 speech[ORDER + SUBFRAME];
    auto residual = [&](Word16 coefficients[]) -> const char * {
        quoted_Residu(coefficients, &speech[ORDER], left, SUBFRAME);
        Residu(coefficients, &speech[ORDER], right, SUBFRAME);
        if (!same(left, right))
            return told_at("Residu", first_difference(left, right), [&](int n) {
                quoted_Residu(coefficients, &speech[ORDER], left, n);
            });
        memcpy(input, left, sizeof input);
        return nullptr;
    };

    const char *text = nullptr;
    (text = synthesis(call.quantized, zero)) || (text = synthesis(weights[1][0], zero));
    if (text)
        return text;
    memcpy(speech, call.speech, sizeof speech);
    (text = residual(call.quantized)) || (text = synthesis(call.quantized, call.error));
    if (text)
        return text;
    memcpy(speech, call.error, sizeof call.error);
    memcpy(&speech[ORDER], input, sizeof input);
    (text = residual(weights[0][0])) || (text = synthesis(weights[1][0], call.weighting));
    return text ? text : "subframePreProc";
}

/* Where the first of the gaps is clipped, in the order of the text: operators.h doesn't tell it. */
const char *why_spectrum(const watch_call *call)
{
    auto clips = [&](int i) {
        int gap = call->spectrum[i] - call->spectrum[i + 1];
        return gap != Word16(gap);
    };
    for (int i = 3; i < M - 2; i++)
        if (clips(i))
            return "check_lsp, sub clips in an upper gap";
    for (int i = 1; i < 3; i++)
        if (clips(i))
            return "check_lsp, sub clips in a lower gap";
    return "check_lsp";
}

} // extern "C"
