/*
 * The stages of one subframe, called from C, on silence and on a voiced sound, and both readers on
 * what they send; a tuning screen, which shows an index before it is sent; a level meter of the
 * gain row, on a sound that fits and on a loud one; the resonance watch on a test tone; the pitch
 * of an announcement player beside that of a handset; and a tuning bench, which searches whole
 * logged frames. Prints each answer, behind a pitch and a lag of one subframe the start of its
 * window, behind a preview and a frame the searcher, and behind a watched row the stored gains.
 */
#include "mr74.h"
#include "sound.h"

#include <stdio.h>
#include <string.h>

/* What is kept from one subframe to the next. */
typedef struct {
    int16_t detector[MR74_HISTORY];
    mr74_pitch_state searcher;
    mr74_pitch_state reader;
} state;

/* Searcher and reader are made alike: only then does the reader recover what the searcher sends. */
static state fresh(mr74_pitch_state end)
{
    state kept = {{0}, end, end};
    return kept;
}

static void refused(unsigned number, bool negative, uint64_t magnitude)
{
    printf("refused %u %s%llu\n", number, negative ? "-" : "", (unsigned long long)magnitude);
}

/* The open-loop lag of a half frame, 0 where it is refused. */
static uint16_t open_loop(state *kept, const int16_t samples[MR74_HALF_FRAME])
{
    mr74_open_loop_answer open =
        mr74_open_loop(samples, MR74_HALF_FRAME, kept->detector, MR74_HISTORY);
    if (open.number != MR74_ACCEPTED) {
        refused(open.number, false, open.magnitude);
        return 0;
    }
    printf("open %u\n", open.lag);
    return open.lag;
}

static void print_searcher(const mr74_pitch_state *searcher)
{
    printf("searcher %u %d %u %u %u\n", searcher->samples, searcher->fraction, searcher->next,
           searcher->upper, searcher->start);
}

/*
 * For a tuning screen: the index and the lag that the subframe would get. The searcher is the one
 * from before, and its start that of its last window.
 */
static void preview(state *kept, const int16_t excitation[MR74_EXCITATION],
                    const int16_t target[MR74_SUBFRAME], const int16_t impulse[MR74_SUBFRAME],
                    uint16_t lag, uint8_t subframe)
{
    mr74_pitch_answer shown =
        mr74_preview(kept->searcher, excitation, MR74_EXCITATION, target, MR74_SUBFRAME, impulse,
                     MR74_SUBFRAME, lag, lag, subframe);
    printf("preview ");
    if (shown.number != MR74_ACCEPTED)
        refused(shown.number, false, shown.magnitude);
    else
        printf("%u %u %d\n", shown.index, shown.samples, shown.fraction);
    /* Only to print it: the answer has the searcher as it was given. */
    kept->searcher = mr74_pitch_after(&shown);
    print_searcher(&kept->searcher);
}

/* The pitch of a subframe, sent and read back, each with the start of its window. */
static mr74_pitch_answer pitch(state *kept, const int16_t excitation[MR74_EXCITATION],
                               const int16_t target[MR74_SUBFRAME],
                               const int16_t impulse[MR74_SUBFRAME], uint16_t lag,
                               uint8_t subframe)
{
    mr74_pitch_answer sent =
        mr74_pitch_search(kept->searcher, excitation, MR74_EXCITATION, target, MR74_SUBFRAME,
                          impulse, MR74_SUBFRAME, lag, lag, subframe);
    kept->searcher = mr74_pitch_after(&sent);
    if (sent.number != MR74_ACCEPTED) {
        refused(sent.number, false, sent.magnitude);
        return sent;
    }
    printf("pitch %u %u %d\n", sent.index, sent.samples, sent.fraction);
    printf("start %u\n", sent.start);
    mr74_pitch_answer read = mr74_read_lag(kept->reader, subframe, sent.index);
    kept->reader = mr74_pitch_after(&read);
    printf("lag %u %d\n", read.samples, read.fraction);
    printf("start %u\n", read.start);
    return sent;
}

/* The pulses of a subframe, sent and read back; the filtered ones are kept for the gain row. */
static void pulses(const int16_t target[MR74_SUBFRAME], const int16_t impulse[MR74_SUBFRAME],
                   uint16_t lag, mr74_sharpening_gain gain, int16_t filtered[MR74_SUBFRAME])
{
    int16_t innovation[MR74_SUBFRAME], sharpened[MR74_SUBFRAME], samples[MR74_SUBFRAME];
    mr74_pulses_answer sent = mr74_pulse_search(
        target, MR74_SUBFRAME, impulse, MR74_SUBFRAME, lag, gain, innovation, MR74_SUBFRAME,
        filtered, MR74_SUBFRAME, sharpened, MR74_SUBFRAME);
    if (sent.number != MR74_ACCEPTED) {
        refused(sent.number, false, sent.magnitude);
        return;
    }
    printf("pulses %u %u\n", sent.positions, sent.signs);
    mr74_places_answer read =
        mr74_read_pulses(sent.positions, sent.signs, samples, MR74_SUBFRAME);
    printf("places %zu %zu %zu %zu\n", read.first, read.second, read.third, read.last);
}

/* The gain row of a predicted pair; where the pair is refused, the half of it that was wrong. */
static void gain_row(const int16_t target[MR74_SUBFRAME], const int16_t adaptive[MR74_SUBFRAME],
                     const int16_t filtered[MR74_SUBFRAME], int16_t exponent,
                     uint16_t fraction_q15, uint8_t limit)
{
    mr74_gain_answer row = mr74_quantize(target, MR74_SUBFRAME, adaptive, MR74_SUBFRAME, filtered,
                                         MR74_SUBFRAME, exponent, fraction_q15, limit);
    if (row.number != MR74_ACCEPTED) {
        if (row.number == MR74_EXPONENT)
            printf("exponent ");
        if (row.number == MR74_FRACTION)
            printf("fraction ");
        refused(row.number, row.negative, row.magnitude);
        return;
    }
    printf("gain %u %d %d\n", row.index, row.pitch_q14, row.correction_q12);
}

/*
 * A sound that grows over the subframe, and its level: too loud for the sums of the gain row where
 * a term of one was clipped. Each number is out of MR74_SUBFRAME terms.
 */
static void rising(int step)
{
    int16_t target[MR74_SUBFRAME], adaptive[MR74_SUBFRAME];
    for (int i = 0; i < MR74_SUBFRAME; i++) {
        adaptive[i] = (int16_t)(i % 2 == 0 ? step * i : -step * i);
        target[i] = adaptive[i] / 2;
    }
    mr74_pitch_gain_answer gain =
        mr74_pitch_gain(target, MR74_SUBFRAME, adaptive, MR74_SUBFRAME);
    printf("pitch gain %d clips %u %u\n", gain.gain_q14, gain.energy_clips, gain.target_clips);
    mr74_gain_answer row =
        mr74_quantize(target, MR74_SUBFRAME, adaptive, MR74_SUBFRAME, adaptive, MR74_SUBFRAME, 0,
                      0, MR74_UNRESTRICTED);
    bool loud = row.energy_clips > 0 || row.target_clips > 0 || row.innovation_clips > 0 ||
                row.target_innovation_clips > 0 || row.adaptive_innovation_clips > 0;
    printf("level %s %u %u %u %u %u\n", loud ? "loud" : "fits", row.energy_clips,
           row.target_clips, row.innovation_clips, row.target_innovation_clips,
           row.adaptive_innovation_clips);
}

static void silence(void)
{
    const int16_t zeros[MR74_EXCITATION] = {0};
    int16_t filtered[MR74_SUBFRAME];
    mr74_sharpening_gain none = {0};
    state kept = fresh(mr74_fresh_pitch());
    uint16_t lag = open_loop(&kept, zeros);
    pitch(&kept, zeros, zeros, zeros, lag, 1);
    pitch(&kept, zeros, zeros, zeros, lag, 2);
    /* Subframe 3 is expected, and the searcher stays as it is. */
    pitch(&kept, zeros, zeros, zeros, lag, 2);
    pulses(zeros, zeros, 40, none, filtered);
    gain_row(zeros, zeros, zeros, 0, 0, MR74_UNRESTRICTED);
    gain_row(zeros, zeros, zeros, 0, 0, MR74_RESONANCE);
    gain_row(zeros, zeros, zeros, 0, 0, 2);
    /* The exponent is looked at first. */
    gain_row(zeros, zeros, zeros, -129, 32768, MR74_UNRESTRICTED);
    gain_row(zeros, zeros, zeros, -128, 32768, MR74_UNRESTRICTED);
    mr74_open_loop_answer bad = mr74_open_loop_lag(144);
    refused(bad.number, false, bad.magnitude);
}

/* A pulse every 57 samples, and a filter with one pole. */
static void voiced(void)
{
    enum { PERIOD = 57 };
    const int16_t filter[MR74_COEFFICIENTS] = {4096, -3200};
    const int16_t past[MR74_ORDER] = {0};
    int16_t half_frame[MR74_HALF_FRAME], speech[MR74_SPEECH], excitation[MR74_EXCITATION];
    int16_t residual[MR74_SUBFRAME], impulse[MR74_SUBFRAME];
    int16_t target[MR74_SUBFRAME], error[MR74_SUBFRAME];
    int16_t adaptive[MR74_SUBFRAME], filtered[MR74_SUBFRAME];

    state kept = fresh(mr74_fresh_pitch());
    uint16_t lag = 0;
    for (int half = 0; half < 2; half++) {
        for (int i = 0; i < MR74_HALF_FRAME; i++)
            half_frame[i] = (MR74_HALF_FRAME * half + i) % PERIOD == 0 ? 8000 : 0;
        lag = open_loop(&kept, half_frame);
    }

    int16_t sample = 0;
    for (int i = 0; i < MR74_SPEECH; i++) {
        sample = (int16_t)(sample * 3 / 4 + (i % PERIOD == 20 ? 8000 : 0));
        speech[i] = sample;
    }
    mr74_length_answer prepared = mr74_prepare(
        speech, MR74_SPEECH, filter, MR74_COEFFICIENTS, filter, MR74_COEFFICIENTS, past,
        MR74_ORDER, past, MR74_ORDER, residual, MR74_SUBFRAME, impulse, MR74_SUBFRAME, target,
        MR74_SUBFRAME, error, MR74_SUBFRAME);
    if (prepared.number != MR74_ACCEPTED) {
        refused(prepared.number, false, prepared.magnitude);
        return;
    }
    printf("filter %d %d %d %d\n", residual[10], impulse[1], target[10], error[10]);
    mr74_residual(filter, MR74_COEFFICIENTS, speech, MR74_SPEECH, residual, MR74_SUBFRAME);
    printf("residual %d %d\n", residual[10], residual[11]);

    for (int i = 0; i < PAST; i++)
        excitation[i] = (PAST - i + 10) % PERIOD == 0 ? 8000 : 0;
    memcpy(excitation + PAST, residual, sizeof residual);
    preview(&kept, excitation, target, impulse, lag, 1);
    mr74_pitch_answer found = pitch(&kept, excitation, target, impulse, lag, 1);

    /* The excitation one lag ago stands for the adaptive words. */
    mr74_convolve(excitation + PAST - found.samples, MR74_SUBFRAME, impulse, MR74_SUBFRAME,
                  adaptive, MR74_SUBFRAME);
    mr74_pitch_gain_answer gain =
        mr74_pitch_gain(target, MR74_SUBFRAME, adaptive, MR74_SUBFRAME);
    printf("pitch gain %d\n", gain.gain_q14);
    mr74_sharpening_gain sharpening = {8192};
    pulses(target, impulse, found.samples, sharpening, filtered);
    gain_row(target, adaptive, filtered, 0, 0, MR74_UNRESTRICTED);
    mr74_logarithm level = mr74_log2(8000);
    mr74_power_answer power = mr74_pow2(level.exponent, level.fraction_q15);
    printf("power %d\n", power.value);

    /* Subframe 2 is expected: 1 is refused, and 2, on the same words, is shown and then sent. */
    preview(&kept, excitation, target, impulse, lag, 1);
    preview(&kept, excitation, target, impulse, lag, 2);
    pitch(&kept, excitation, target, impulse, lag, 2);
}

/* What a resonance watch keeps; all 0 when fresh. */
typedef struct {
    uint8_t count;
    int16_t gains_q11[MR74_STORED_GAINS];
} watch;

/* The spectrum of a frame. */
static void observe(watch *kept, const int16_t lsp[MR74_SPECTRUM])
{
    mr74_spectrum_answer seen = mr74_observe_spectrum(lsp, MR74_SPECTRUM, kept->count);
    kept->count = seen.count;
    printf("spectrum %u%s\n", seen.count, seen.resonant ? " resonant" : "");
}

static const char *name(uint8_t limit)
{
    return limit == MR74_RESONANCE ? "resonance" : "unrestricted";
}

/* The gain row of a subframe under the watch, which has so many of the stored gains at hand. */
static void watched_row(watch *kept, const int16_t target[MR74_SUBFRAME],
                        const int16_t adaptive[MR74_SUBFRAME],
                        const int16_t filtered[MR74_SUBFRAME], int16_t pitch_gain_q14,
                        size_t stored)
{
    mr74_watched_gain_answer row =
        mr74_watched_gain(target, MR74_SUBFRAME, adaptive, MR74_SUBFRAME, filtered, MR74_SUBFRAME,
                          0, 0, pitch_gain_q14, kept->count, kept->gains_q11, stored);
    printf("watched ");
    if (row.gain.number != MR74_ACCEPTED)
        refused(row.gain.number, row.gain.negative, row.gain.magnitude);
    else
        printf("%s %u %d %d\n", name(row.limit), row.gain.index, row.gain.pitch_q14,
               row.gain.correction_q12);
    printf("stored");
    for (int i = 0; i < MR74_STORED_GAINS; i++)
        printf(" %d", kept->gains_q11[i]);
    printf("\n");
}

/*
 * For a site with test tones: thirteen frames of a tone of 2000 Hz, and the gain rows after them.
 * Two values of its spectrum lie closely about the tone's own cosine, which is 0.
 */
static void test_tone(void)
{
    const int16_t tone[MR74_SPECTRUM] = {31441, 27566,  21458,  13612,  600,
                                         -600,  -13612, -21458, -27566, -31441};
    const int16_t zeros[MR74_SUBFRAME] = {0};
    int16_t target[MR74_SUBFRAME], adaptive[MR74_SUBFRAME];
    for (int i = 0; i < MR74_SUBFRAME; i++) {
        adaptive[i] = i % 2 == 0 ? 0 : i % 4 == 1 ? 8000 : -8000;
        target[i] = (int16_t)(adaptive[i] + adaptive[i] / 8);
    }
    /* The rows before them had a pitch gain of 16222. */
    watch kept = {0, {2027, 2027, 2027, 2027, 2027, 2027, 2027}};
    for (int frame = 0; frame < 13; frame++)
        observe(&kept, tone);

    /* An encoder that limits the pitch gain before the pulses asks for the limit there. */
    int16_t gain_q14 = mr74_pitch_gain(target, MR74_SUBFRAME, adaptive, MR74_SUBFRAME).gain_q14;
    mr74_limit_answer limit =
        mr74_watch_limit(gain_q14, kept.count, kept.gains_q11, MR74_STORED_GAINS);
    printf("pitch gain %d limit %s\n", gain_q14, name(limit.limit));
    watched_row(&kept, target, adaptive, zeros, gain_q14, MR74_STORED_GAINS);
    /* A pitch gain of at most 15565 is not limited; it is the row's that is stored. */
    watched_row(&kept, target, adaptive, zeros, 15565, MR74_STORED_GAINS);
    watched_row(&kept, target, adaptive, zeros, gain_q14, MR74_STORED_GAINS);
    /* One gain too few: nothing is written. */
    watched_row(&kept, target, adaptive, zeros, gain_q14, MR74_STORED_GAINS - 1);
    /* The same rows with the limits set by hand. */
    gain_row(target, adaptive, zeros, 0, 0, MR74_RESONANCE);
    gain_row(target, adaptive, zeros, 0, 0, MR74_UNRESTRICTED);
}

/* The largest open-loop lag of a player in subframes 1 and 2, and one more in 3. */
static void upper_lag(mr74_pitch_state end)
{
    const int16_t zeros[MR74_EXCITATION] = {0};
    state kept = fresh(end);
    printf("%s\n", end.upper == MR74_PLAYER_LAG ? "player" : "handset");
    pitch(&kept, zeros, zeros, zeros, MR74_PLAYER_LAG, 1);
    pitch(&kept, zeros, zeros, zeros, MR74_PLAYER_LAG, 2);
    /* A player's searcher refuses it, in a preview too, and stays as it is. */
    preview(&kept, zeros, zeros, zeros, MR74_PLAYER_LAG + 1, 3);
    pitch(&kept, zeros, zeros, zeros, MR74_PLAYER_LAG + 1, 3);
}

/*
 * For a tuning bench: a logged frame in one call. Prints both open-loop lags, what is sent for each
 * subframe and what the reader makes of it. A refused frame has nothing to send.
 */
static void frame(state *kept, const int16_t samples[MR74_FRAME], const mr74_subframe_lists had[4])
{
    int16_t before[MR74_HISTORY];
    memcpy(before, kept->detector, sizeof before);
    mr74_frame_answer sent = mr74_frame(kept->searcher, samples, MR74_FRAME, had[0], had[1],
                                        had[2], had[3], kept->detector, MR74_HISTORY);
    kept->searcher = sent.searcher;
    printf("frame ");
    if (sent.number == MR74_ACCEPTED) {
        printf("%u %u\n", sent.first_lag, sent.second_lag);
        for (uint8_t subframe = 1; subframe <= 4; subframe++) {
            mr74_frame_pitch pitch = sent.pitches[subframe - 1];
            printf("pitch %u %u %d\n", pitch.index, pitch.samples, pitch.fraction);
            mr74_pitch_answer read = mr74_read_lag(kept->reader, subframe, pitch.index);
            kept->reader = mr74_pitch_after(&read);
            printf("lag %u %d\n", read.samples, read.fraction);
        }
    } else {
        refused(sent.number, false, sent.magnitude);
    }
    bool same = memcmp(before, kept->detector, sizeof before) == 0;
    printf("history %s\n", same ? "as before" : "updated");
    print_searcher(&kept->searcher);
}

/* A logged frame of a sound with a pulse every so many samples. */
static void logged(state *kept, int period)
{
    sound heard = sound_of(period);
    mr74_subframe_lists had[4];
    for (int i = 0; i < 4; i++)
        had[i] = lists_of(&heard, i + 1);
    frame(kept, heard.samples + PAST, had);
}

/* A player's frame, and one whose second half has an open-loop lag that a player refuses. */
static void logged_frames(void)
{
    state kept = fresh(mr74_fresh_player());
    logged(&kept, 45);
    logged(&kept, 130);
}

int main(void)
{
    silence();
    voiced();
    rising(200);
    rising(800);
    test_tone();
    upper_lag(mr74_fresh_player());
    upper_lag(mr74_fresh_pitch());
    logged_frames();
    return 0;
}
