/*
 * The selection stages of the MR74 (7.4 kbit/s) speech encoder, for C.
 *
 * Link with libmr74.a, which `./build mr74` writes to target/staticlib (x86-64 Linux). Every
 * function is proved to end and to answer by its definition, for all lists and numbers. None keeps
 * state of its own, takes memory or reads and writes files, so any thread may call them.
 *
 * A list is lent as its first word and its length. Three things are the caller's to keep:
 *   - the length is that of the list,
 *   - the pointer is not null, even where the length is 0,
 *   - a list that is written overlaps no other list of the same call.
 *
 * An answer has `number` 0 where the call was accepted. Else it is the number of a refusal,
 * `magnitude` is its detail (with `negative` where it can be below 0), the values are 0, and no
 * list and no state has changed; mr74_serve says what a refused search changes there.
 *
 *   number  what is turned down                                               detail
 *        1  a list has another length than its stage needs                    the first such length
 *        2  a subframe, that of a call or the one expected next, is outside
 *           1 to 4, or a limit is not 0 or 1                                  that number
 *        3  an open-loop lag is outside 20 to 143, or above 120 for a
 *           player's searcher                                                 the first such lag
 *        4  the subframe, of a whole frame its first, is not the one
 *           expected next                                                     the expected one
 *        5  a relative pitch index is above 31                                the index
 *        6  the pulse stage's lag is outside 19 to 144                        the lag
 *        7  the exponent of a power is above 30, or a predicted exponent is
 *           outside -128 to 127                                               the exponent
 *        8  a position word is above 8191, or a sign word above 15            the first such word
 *        9  a feed record has a kind above 6                                  the kind
 *       10  a feed ends inside a record's body                                the body bytes present
 *       14  a fraction is above 32767, and its exponent is good               the fraction
 *       15  a list has no channels, or more than 24                           its length
 *       16  a channel to be marked is not below the list's length             its number
 *       17  no channel of the list waits                                      0
 *
 * Where several things are wrong, the first in the order that each function names is given. Lengths
 * are checked in the order of the arguments, those of a struct in the order of its fields, a call's
 * subframe before the one that its searcher or reader expects.
 *
 * q0, q10, q12, q13, q14 and q15 in a name say how many of the word's bits are fraction bits.
 */
#ifndef MR74_H
#define MR74_H

#include <stdbool.h>
#include <stddef.h>
#include <stdint.h>

#ifdef __cplusplus
extern "C" {
#endif

/* Lengths of lists, in words. */
#define MR74_SUBFRAME 40
#define MR74_HALF_FRAME 80
#define MR74_FRAME 160        /* two half frames, or four subframes */
#define MR74_HISTORY 143      /* what a detector keeps */
#define MR74_EXCITATION 194   /* 154 words of the past, then the subframe's residual */
#define MR74_COEFFICIENTS 11  /* of a filter; the first stands for 1 and is 4096 */
#define MR74_ORDER 10         /* the past of a filter, the oldest word first */
#define MR74_SPEECH 50        /* MR74_ORDER words of the past, then the subframe */
#define MR74_FILTER_WORDS 160 /* residual, impulse, target and error of a filtering record */
#define MR74_SPECTRUM 10      /* the line spectral pairs of a frame, as cosines in Q15 */
#define MR74_STORED_GAINS 7   /* what a resonance watch keeps */

/* Refusals, by the table above. */
enum {
    MR74_ACCEPTED = 0,
    MR74_LENGTH = 1,
    MR74_SUBFRAME_OR_LIMIT = 2,
    MR74_OPEN_LOOP_LAG = 3,
    MR74_ORDER_OF_SUBFRAMES = 4,
    MR74_RELATIVE_INDEX = 5,
    MR74_PULSE_LAG = 6,
    MR74_EXPONENT = 7,
    MR74_PULSE_WORD = 8,
    MR74_KIND = 9,
    MR74_FEED_END = 10,
    MR74_FRACTION = 14,
    MR74_CHANNEL_COUNT = 15,
    MR74_CHANNEL_NUMBER = 16,
    MR74_NONE_WAITS = 17
};

/* ---- Target filtering ---- */

typedef struct {
    uint8_t number;
    uint64_t magnitude;
} mr74_length_answer;

/*
 * A subframe's residual, impulse response, target and error, each MR74_SUBFRAME words.
 * Reads MR74_SPEECH words of speech, two filters of MR74_COEFFICIENTS words, and the histories of
 * the error and of the weighting filter, MR74_ORDER words each. Refuses by 1.
 */
mr74_length_answer mr74_prepare(const int16_t *speech_q0, size_t speech_length,
                                const int16_t *coefficients_q12, size_t coefficients_length,
                                const int16_t *quantized_q12, size_t quantized_length,
                                const int16_t *error_history_q0, size_t error_history_length,
                                const int16_t *weighting_history_q0,
                                size_t weighting_history_length,
                                int16_t *residual_q0, size_t residual_length,
                                int16_t *impulse_q12, size_t impulse_length,
                                int16_t *target_q0, size_t target_length,
                                int16_t *error_q0, size_t error_length);

/* The residual (MR74_SUBFRAME) of MR74_SPEECH samples and MR74_COEFFICIENTS words. Refuses by 1. */
mr74_length_answer mr74_residual(const int16_t *coefficients_q12, size_t coefficients_length,
                                 const int16_t *samples_q0, size_t samples_length,
                                 int16_t *residual_q0, size_t residual_length);

/* ---- Open loop ---- */

typedef struct {
    uint8_t number;
    uint64_t magnitude;
    uint16_t lag; /* 20 to 143 */
} mr74_open_loop_answer;

/*
 * The lag of the next MR74_HALF_FRAME words of weighted speech. A detector is MR74_HISTORY words,
 * all 0 when fresh, which the call updates. Refuses by 1.
 */
mr74_open_loop_answer mr74_open_loop(const int16_t *samples_q0, size_t samples_length,
                                     int16_t *history_q0, size_t history_length);

/* The same number, where it is an open-loop lag, 20 to 143. Refuses by 3. */
mr74_open_loop_answer mr74_open_loop_lag(uint16_t samples);

/* ---- Closed loop ---- */

/* The upper lags: the largest open-loop lag of an announcement player and of a handset. */
enum { MR74_PLAYER_LAG = 120, MR74_HANDSET_LAG = 143 };

/*
 * A searcher or a lag reader. Calls take any numbers: no answer depends on the fraction or on the
 * start, and a `next` outside 1 to 4 is refused by 2, directly after the call's own subframe (a
 * whole frame is given none). A refused call, and a preview always, hands back the numbers that it
 * was given, whatever they are.
 *
 * `upper` is the upper lag: MR74_PLAYER_LAG is an announcement player's, and every other number is
 * taken as a handset's. mr74_fresh_player and mr74_fresh_pitch set it. After an accepted search or
 * reading, and after a reset, it is MR74_PLAYER_LAG or MR74_HANDSET_LAG. A reader recovers what a
 * searcher sends if both were made with the same upper lag.
 *
 * `start` tells which window a lag came from. After an accepted search it is the first whole lag
 * that was searched: the first open-loop lag less 3 in subframe 1 and the second less 3 in 3, both
 * held to 20 to 137, or to 20 to 114 for a player; the whole lag of the subframe before less 5 in 2
 * and 4, held to 20 to 134, or to 20 to 111 for a player. The whole lag that the search answers
 * lies between start - 1 and start + 10.
 * After an accepted reading it is the start that the reader used in subframes 2 and 4, by the same
 * rule, and 0 in 1 and 3. Where a subframe 2 or 4 directly follows an index that arrived as it was
 * sent, a reader and a searcher with the same upper lag have the same start after it, even if its
 * own index is damaged.
 */
typedef struct {
    uint16_t samples; /* the lag before: whole samples .. */
    int16_t fraction; /* .. and thirds, -1, 0 or 1 */
    uint8_t next;     /* the subframe expected, 1 to 4 */
    uint8_t upper;    /* 120 for a player; any other number for a handset */
    uint16_t start;   /* of the last window, 0 when fresh */
} mr74_pitch_state;

typedef struct {
    uint8_t number;
    uint64_t magnitude;
    uint8_t index;    /* what is sent, or would be; 0 from the reader */
    uint16_t samples; /* the lag: whole samples and thirds */
    int16_t fraction;
    uint16_t previous_samples; /* the searcher or reader after the call */
    int16_t previous_fraction;
    uint8_t next;
    uint8_t upper;
    uint16_t start;
} mr74_pitch_answer;

/* A fresh searcher or reader of a handset: lag 40, expecting subframe 1, upper lag 143, start 0. */
mr74_pitch_state mr74_fresh_pitch(void);

/* The same of an announcement player: upper lag 120. */
mr74_pitch_state mr74_fresh_player(void);

/*
 * The lag and the index of a subframe. Reads MR74_EXCITATION words of excitation, target and
 * impulse response (MR74_SUBFRAME each), both open-loop lags of the frame and the subframe's
 * number. Refuses by 1, 2, 3 and 4: by 3 either open-loop lag, in every subframe.
 */
mr74_pitch_answer mr74_pitch_search(mr74_pitch_state searcher,
                                    const int16_t *excitation_q0, size_t excitation_length,
                                    const int16_t *target_q0, size_t target_length,
                                    const int16_t *impulse_q12, size_t impulse_length,
                                    uint16_t first_lag, uint16_t second_lag, uint8_t subframe);

/*
 * A preview of that search: number, magnitude, index, samples and fraction are what
 * mr74_pitch_search answers to the same arguments, so a search with them afterwards answers the
 * same index. The state in the answer is always the one given: its `start` is that of the
 * searcher's last window, not of the previewed one, and says nothing of the previewed lag.
 * Refuses by 1, 2, 3 and 4 like the search.
 */
mr74_pitch_answer mr74_preview(mr74_pitch_state searcher,
                               const int16_t *excitation_q0, size_t excitation_length,
                               const int16_t *target_q0, size_t target_length,
                               const int16_t *impulse_q12, size_t impulse_length,
                               uint16_t first_lag, uint16_t second_lag, uint8_t subframe);

/*
 * The lag that a sent index stands for. Refuses by 2, 4 and, in subframes 2 and 4, 5. In subframes
 * 1 and 3 a player's reader takes every index too: it reads 233 to 255, which no player's searcher
 * sends, as the lags 121 to 143.
 */
mr74_pitch_answer mr74_read_lag(mr74_pitch_state reader, uint8_t subframe, uint8_t index);

/* What the searcher or the reader is after a call. */
static inline mr74_pitch_state mr74_pitch_after(const mr74_pitch_answer *answer)
{
    mr74_pitch_state after = {answer->previous_samples, answer->previous_fraction, answer->next,
                              answer->upper, answer->start};
    return after;
}

/* A list filtered by an impulse response, all three MR74_SUBFRAME words. Refuses by 1. */
mr74_length_answer mr74_convolve(const int16_t *input_q0, size_t input_length,
                                 const int16_t *impulse_q12, size_t impulse_length,
                                 int16_t *output_q0, size_t output_length);

/* ---- A whole frame ---- */

/* What the encoder had at a subframe: a list of MR74_EXCITATION words and two of MR74_SUBFRAME. */
typedef struct {
    const int16_t *excitation_q0;
    size_t excitation_length;
    const int16_t *target_q0;
    size_t target_length;
    const int16_t *impulse_q12;
    size_t impulse_length;
} mr74_subframe_lists;

typedef struct {
    uint8_t index;    /* what is sent */
    uint16_t samples; /* the lag: whole samples and thirds */
    int16_t fraction;
} mr74_frame_pitch;

typedef struct {
    uint8_t number;
    uint64_t magnitude;
    uint16_t first_lag; /* the open-loop lags of the two half frames, 20 to 143 */
    uint16_t second_lag;
    mr74_frame_pitch pitches[4]; /* of subframes 1 to 4 */
    mr74_pitch_state searcher;   /* after the call */
} mr74_frame_answer;

/*
 * A frame in one call. Reads MR74_FRAME words of weighted speech and what the encoder had at each
 * of the four subframes. Lags, pitches, history and searcher are those of two calls of
 * mr74_open_loop, one for each half of the samples, and then of mr74_pitch_search for subframes 1
 * to 4 with both lags. So a lag reader reads the four indexes as it reads those of four searches,
 * and the searcher's `start` is that of subframe 4.
 *
 * The detector's MR74_HISTORY words are updated where the whole frame is accepted. Where any part
 * is refused they stay as they are, the searcher is handed back as it was given, and no index is
 * there to be sent: lags and pitches are 0.
 *
 * Refuses by 1, 2, 4 and 3: by 4, before the detector is asked, a searcher that does not expect
 * subframe 1; by 3 a lag of either half above 120, the first half's before the second's, where the
 * searcher is a player's. A search by itself refuses by 3 before 4.
 */
mr74_frame_answer mr74_frame(mr74_pitch_state searcher,
                             const int16_t *samples_q0, size_t samples_length,
                             mr74_subframe_lists one, mr74_subframe_lists two,
                             mr74_subframe_lists three, mr74_subframe_lists four,
                             int16_t *history_q0, size_t history_length);

/* ---- Channels: a list of them takes turns at the searches ---- */

/* The most channels of a list. */
#define MR74_CHANNELS 24

/* As `last`: none was served yet. As `channel` of an answer: there is none. */
#define MR74_NO_CHANNEL SIZE_MAX

/*
 * A channel: its searcher, and its mark. Calls take any numbers in both. A channel is made with
 * mr74_fresh_pitch() or mr74_fresh_player() as its searcher, and the mark 0. To reset it, write a
 * fresh searcher there; the mark may stay.
 *
 * The caller keeps the list of the channels, and beside it `last`, the last served number. A fresh
 * `last` is MR74_NO_CHANNEL; after each mr74_serve it is the `last` of the answer. Channels are
 * numbered from 0, and any number is taken as `last`.
 *
 * There is no lock: while a thread calls mr74_serve or mr74_mark on a list, no other thread may use
 * that list and its `last`. Threads with lists of their own need not wait for each other.
 */
typedef struct {
    mr74_pitch_state searcher;
    uint8_t waiting; /* 0, or any other number where the channel waits */
} mr74_channel;

typedef struct {
    uint8_t number;
    uint64_t magnitude;
    size_t channel; /* the one that is next, or was marked; MR74_NO_CHANNEL where refused */
} mr74_channel_answer;

typedef struct {
    uint8_t number;
    uint64_t magnitude;
    size_t channel;         /* the one that was served; MR74_NO_CHANNEL by 15 and 17 */
    size_t last;            /* for the next call */
    mr74_frame_pitch pitch; /* what is sent, and the lag; zeros where refused */
} mr74_service_answer;

/*
 * Marks a channel: writes 1 as its mark, and nothing else. One that waits already goes on waiting,
 * for one turn. Refuses by 15 and 16.
 */
mr74_channel_answer mr74_mark(mr74_channel *channels, size_t channel_count, size_t channel);

/*
 * The channel that mr74_serve would serve: the first that waits after `last`, going round, so that
 * `last` itself comes at the end. Where `last` is not below the list's length, it looks from
 * channel 0. Nothing is written. Refuses by 15 and 17.
 */
mr74_channel_answer mr74_next(const mr74_channel *channels, size_t channel_count, size_t last);

/*
 * A service step: one mr74_pitch_search, with the lists and numbers given, by the searcher of the
 * channel that mr74_next tells. The inputs of a search are a channel's own, so ask mr74_next first.
 * The mark of that channel becomes 0, its searcher is the one after the search, and `last` in the
 * answer is its number. No other record is written.
 *
 * Refuses by 15 and 17, before the search's inputs are looked at: no channel is served, nothing has
 * changed, and `last` in the answer is the one that was given. Refuses by 1, 2, 3 and 4 as
 * mr74_pitch_search does: then too the channel was served, with its mark 0 and `last` its number,
 * and its searcher stays as it was.
 *
 * While the list keeps its length, and only mr74_serve and mr74_mark touch it and `last`:
 *   - a channel that waits is served within as many steps as the list has channels, whichever
 *     others are marked between them,
 *   - what a channel's searches answer depends on the searcher that it started with and on the
 *     inputs and subframe numbers of its own steps, in their order.
 */
mr74_service_answer mr74_serve(mr74_channel *channels, size_t channel_count, size_t last,
                               const int16_t *excitation_q0, size_t excitation_length,
                               const int16_t *target_q0, size_t target_length,
                               const int16_t *impulse_q12, size_t impulse_length,
                               uint16_t first_lag, uint16_t second_lag, uint8_t subframe);

/* ---- Pulses ---- */

/* A type of its own, so that a plain number, or a gain of another scale, does not compile here. */
typedef struct {
    int16_t q14;
} mr74_sharpening_gain;

typedef struct {
    uint8_t number;
    uint64_t magnitude;
    uint16_t positions; /* 0 to 8191 */
    uint16_t signs;     /* 0 to 15 */
} mr74_pulses_answer;

typedef struct {
    uint8_t number;
    uint64_t magnitude;
    size_t first; /* the places in tracks 0, 1, 2 .. */
    size_t second;
    size_t third;
    size_t last; /* .. and 3 or 4 */
} mr74_places_answer;

/*
 * The four pulses of a subframe. All lists are MR74_SUBFRAME words; those written are the
 * innovation, the filtered pulses and the sharpened impulse response. Refuses by 1 and 6.
 */
mr74_pulses_answer mr74_pulse_search(const int16_t *target_q0, size_t target_length,
                                     const int16_t *impulse_q12, size_t impulse_length,
                                     uint16_t lag, mr74_sharpening_gain gain,
                                     int16_t *innovation_q13, size_t innovation_length,
                                     int16_t *filtered_q12, size_t filtered_length,
                                     int16_t *sharpened_impulse_q12,
                                     size_t sharpened_impulse_length);

/* The MR74_SUBFRAME samples that two words stand for, not sharpened. Refuses by 1 and 8. */
mr74_places_answer mr74_read_pulses(uint16_t positions, uint16_t signs, int16_t *samples_q13,
                                    size_t samples_length);

/* ---- Gain row ---- */

/*
 * For a level meter. A count is of the terms, out of MR74_SUBFRAME, at which the doubled product or
 * the running sum was clipped to 32 bits; a term where both were counts once. Above 0, the words of
 * that sum are too loud for it:
 *   energy_clips               the adaptive words
 *   target_clips               the target and the adaptive words
 *   innovation_clips           always 0: the pulses' eighths, by themselves, are never too loud
 *   target_innovation_clips    the target and the filtered pulses
 *   adaptive_innovation_clips  the adaptive words and the filtered pulses
 * Where energy_clips or target_clips is above 0, the stage has repeated that sum with quarters of
 * the adaptive words; the repetition is not counted.
 */

typedef struct {
    uint8_t number;
    uint64_t magnitude;
    int16_t gain_q14;    /* 0 to 19661 */
    int16_t yy;          /* the energy of the adaptive words, normalised, and its exponent */
    int16_t yy_exponent;
    int16_t xy;          /* their correlation with the target, and its exponent */
    int16_t xy_exponent;
    uint8_t energy_clips; /* of the adaptive words by themselves .. */
    uint8_t target_clips; /* .. and of the target by the adaptive words */
} mr74_pitch_gain_answer;

typedef struct {
    uint8_t number;
    bool negative;
    uint64_t magnitude;
    uint16_t index; /* 0 to 127, and that row of the table */
    int16_t pitch_q14;
    int16_t correction_q12;
    int16_t energy_q10;
    uint8_t energy_clips;              /* as in the pitch gain .. */
    uint8_t target_clips;
    uint8_t innovation_clips;          /* .. of the filtered pulses' eighths by themselves .. */
    uint8_t target_innovation_clips;   /* .. of the target by these eighths .. */
    uint8_t adaptive_innovation_clips; /* .. and of the adaptive words by them */
} mr74_gain_answer;

/* Which rows may be chosen: all, or those with a pitch gain of at most 15565. */
enum { MR74_UNRESTRICTED = 0, MR74_RESONANCE = 1 };

/* The pitch gain of a target and filtered adaptive words, MR74_SUBFRAME each. Refuses by 1. */
mr74_pitch_gain_answer mr74_pitch_gain(const int16_t *target_q0, size_t target_length,
                                       const int16_t *adaptive_q0, size_t adaptive_length);

/*
 * The gain row of a subframe. Reads the target, the filtered adaptive words and the filtered
 * pulses (MR74_SUBFRAME each), the predicted pair (exponent -128 to 127, fraction 0 to 32767) and
 * the limit. Refuses by 1, 2, 7 and 14.
 */
mr74_gain_answer mr74_quantize(const int16_t *target_q0, size_t target_length,
                               const int16_t *adaptive_q0, size_t adaptive_length,
                               const int16_t *filtered_q12, size_t filtered_length,
                               int16_t exponent, uint16_t fraction_q15, uint8_t limit);

/* ---- Resonance watch ---- */

/*
 * The watch chooses the limit of the gain stage, for a site whose input has test tones. It crosses
 * as a count and as MR74_STORED_GAINS words, the oldest first, which are lent and updated. Fresh,
 * and after a reset, the count and all words are 0; any numbers are taken.
 *
 * Once a frame, mr74_observe_spectrum; in each of its subframes, mr74_watched_gain. The caller
 * keeps the count of the one and the words of the other for the next call. A gain stage under a
 * limit set by hand is mr74_quantize, which has nothing to do with the watch.
 */

typedef struct {
    uint8_t number;
    uint64_t magnitude;
    bool resonant; /* whether the count beside it is 12; false where refused */
    uint8_t count; /* 0 to 12, for the next call; the one that was given where refused */
} mr74_spectrum_answer;

typedef struct {
    uint8_t number;
    uint64_t magnitude;
    uint8_t limit; /* MR74_UNRESTRICTED or MR74_RESONANCE */
} mr74_limit_answer;

typedef struct {
    mr74_gain_answer gain; /* as mr74_quantize answers: its `number` is that of this call */
    uint8_t limit;         /* the limit that was chosen, and within which the row lies */
} mr74_watched_gain_answer;

/*
 * Reads the line spectral pairs of a frame (MR74_SPECTRUM). A gap is a word less the next, clipped.
 * Where one of the five gaps from the fourth word on is below 1500, or one of the two from the
 * second word on below a threshold (600 for a second word above 32000, 800 above 30500, else 1100),
 * the count rises by 1, to 12 at most; otherwise it is 0. The gaps of the first and of the ninth
 * word are not looked at. Refuses by 1.
 */
mr74_spectrum_answer mr74_observe_spectrum(const int16_t *lsp_q15, size_t lsp_length,
                                           uint8_t count);

/*
 * The limit that mr74_watched_gain would choose, for an encoder that needs it before the pulses.
 * Nothing is written. It is resonance where the count is at least 12, the pitch gain is above
 * 15565, and so is the sum of the pitch gain shifted right by 3 and then of the stored words, the
 * oldest first, clipped after every addition. Refuses by 1.
 */
mr74_limit_answer mr74_watch_limit(int16_t pitch_gain_q14, uint8_t count,
                                   const int16_t *gains_q11, size_t gains_length);

/*
 * mr74_quantize under the limit that the watch chooses, as it is before the call. The pitch gain is
 * the caller's, as a rule that of mr74_pitch_gain: it is neither computed here nor that of the row.
 * Afterwards the row's pitch gain, shifted right by 3, is the newest word and the oldest has left.
 * Refuses by 1, with the stored words the last of the lists, and by 7 and 14: then the stored words
 * are as they were.
 */
mr74_watched_gain_answer mr74_watched_gain(const int16_t *target_q0, size_t target_length,
                                           const int16_t *adaptive_q0, size_t adaptive_length,
                                           const int16_t *filtered_q12, size_t filtered_length,
                                           int16_t exponent, uint16_t fraction_q15,
                                           int16_t pitch_gain_q14, uint8_t count,
                                           int16_t *gains_q11, size_t gains_length);

/* ---- Logarithm and power to the base 2 ---- */

typedef struct {
    uint8_t exponent; /* 0 to 30 */
    uint16_t fraction_q15;
} mr74_logarithm;

typedef struct {
    uint8_t number;
    bool negative; /* never set here */
    uint64_t magnitude;
    int32_t value;
} mr74_power_answer;

/* The logarithm; 0 and 0 of a value that is not positive. */
mr74_logarithm mr74_log2(int32_t value);

/* The power: exponent 0 to 30, fraction 0 to 32767. Refuses by 7 and 14. */
mr74_power_answer mr74_pow2(uint8_t exponent, uint16_t fraction_q15);

/* ---- Feed: a byte of kind and a body, record after record ---- */

/* What stands for a kind, 0 to 6, where the feed has ended. */
#define MR74_END 7

typedef struct {
    uint8_t number;
    uint64_t magnitude;
    uint8_t kind;
    size_t from; /* the body: its first place in the feed and its length */
    size_t length;
} mr74_record_answer;

/* The record at a place of a feed; the next one is at from + length. Refuses by 9 and 10. */
mr74_record_answer mr74_record(const uint8_t *feed, size_t feed_length, size_t at);

typedef struct {
    uint8_t number;
    bool negative;
    uint64_t magnitude;
    uint8_t line; /* the kind or MR74_END, and the numbers that `select` prints, then 0 */
    int32_t first;
    int32_t second;
    int32_t third;
    int32_t fourth;
    uint16_t searcher_samples; /* searcher and reader after the step */
    int16_t searcher_fraction;
    uint8_t searcher_next;
    uint8_t searcher_upper;
    uint16_t searcher_start;
    uint16_t reader_samples;
    int16_t reader_fraction;
    uint8_t reader_next;
    uint8_t reader_upper;
    uint16_t reader_start;
} mr74_step_answer;

/* What the searcher and the reader are after a step. */
static inline mr74_pitch_state mr74_searcher_after(const mr74_step_answer *answer)
{
    mr74_pitch_state after = {answer->searcher_samples, answer->searcher_fraction,
                              answer->searcher_next, answer->searcher_upper,
                              answer->searcher_start};
    return after;
}

static inline mr74_pitch_state mr74_reader_after(const mr74_step_answer *answer)
{
    mr74_pitch_state after = {answer->reader_samples, answer->reader_fraction, answer->reader_next,
                              answer->reader_upper, answer->reader_start};
    return after;
}

/*
 * Runs the record at a place of a feed: its stage, or the reset. The detector's MR74_HISTORY words
 * are updated. The other list takes the MR74_FILTER_WORDS words of a filtering record; every other
 * record, and a refused one, leaves it as it was. Only a pitch record looks at the subframe that
 * the searcher expects, and only a lag reading at the reader's. A reset makes both fresh, whatever
 * they were, and each keeps its upper lag; a state that a record does not use is handed back as it
 * was given.
 * The last field of a pitch record, the fourth, and of a lag reading, the third, is the pitch in
 * hertz: 24000 / (3 * lag + fraction), with the lag and the fraction that stand before it.
 * Refuses by 1 (history, then words), 9 and 10, then as the record's stage does: 2 to 7 and 14.
 */
mr74_step_answer mr74_step(const uint8_t *feed, size_t feed_length, size_t at,
                           mr74_pitch_state searcher, mr74_pitch_state reader,
                           int16_t *history_q0, size_t history_length,
                           int16_t *words, size_t words_length);

/* ---- The library's layout, where this compiler's would differ ---- */

#ifdef __cplusplus
#define MR74_LAYOUT(condition) static_assert(condition, #condition)
#else
#define MR74_LAYOUT(condition) _Static_assert(condition, #condition)
#endif
MR74_LAYOUT(sizeof(void *) == 8 && sizeof(size_t) == 8 && sizeof(bool) == 1);
MR74_LAYOUT(sizeof(mr74_length_answer) == 16);
MR74_LAYOUT(sizeof(mr74_open_loop_answer) == 24);
MR74_LAYOUT(sizeof(mr74_pitch_state) == 8 && offsetof(mr74_pitch_state, upper) == 5 &&
            offsetof(mr74_pitch_state, start) == 6);
MR74_LAYOUT(sizeof(mr74_pitch_answer) == 32 && offsetof(mr74_pitch_answer, next) == 26 &&
            offsetof(mr74_pitch_answer, upper) == 27 && offsetof(mr74_pitch_answer, start) == 28);
MR74_LAYOUT(sizeof(mr74_subframe_lists) == 48 &&
            offsetof(mr74_subframe_lists, excitation_length) == 8 &&
            offsetof(mr74_subframe_lists, target_q0) == 16 &&
            offsetof(mr74_subframe_lists, impulse_q12) == 32);
MR74_LAYOUT(sizeof(mr74_frame_pitch) == 6 && offsetof(mr74_frame_pitch, samples) == 2 &&
            offsetof(mr74_frame_pitch, fraction) == 4);
MR74_LAYOUT(sizeof(mr74_frame_answer) == 56 && offsetof(mr74_frame_answer, first_lag) == 16 &&
            offsetof(mr74_frame_answer, pitches) == 20 &&
            offsetof(mr74_frame_answer, searcher) == 44);
MR74_LAYOUT(sizeof(mr74_channel) == 10 && offsetof(mr74_channel, waiting) == 8);
MR74_LAYOUT(sizeof(mr74_channel_answer) == 24 && offsetof(mr74_channel_answer, channel) == 16);
MR74_LAYOUT(sizeof(mr74_service_answer) == 40 && offsetof(mr74_service_answer, channel) == 16 &&
            offsetof(mr74_service_answer, last) == 24 &&
            offsetof(mr74_service_answer, pitch) == 32);
MR74_LAYOUT(sizeof(mr74_sharpening_gain) == 2);
MR74_LAYOUT(sizeof(mr74_pulses_answer) == 24);
MR74_LAYOUT(sizeof(mr74_places_answer) == 48);
MR74_LAYOUT(sizeof(mr74_pitch_gain_answer) == 32 &&
            offsetof(mr74_pitch_gain_answer, energy_clips) == 26);
MR74_LAYOUT(sizeof(mr74_gain_answer) == 32 && offsetof(mr74_gain_answer, negative) == 1 &&
            offsetof(mr74_gain_answer, energy_clips) == 24);
MR74_LAYOUT(sizeof(mr74_spectrum_answer) == 24 &&
            offsetof(mr74_spectrum_answer, resonant) == 16 &&
            offsetof(mr74_spectrum_answer, count) == 17);
MR74_LAYOUT(sizeof(mr74_limit_answer) == 24 && offsetof(mr74_limit_answer, limit) == 16);
MR74_LAYOUT(sizeof(mr74_watched_gain_answer) == 40 &&
            offsetof(mr74_watched_gain_answer, limit) == 32);
MR74_LAYOUT(sizeof(mr74_logarithm) == 4);
MR74_LAYOUT(sizeof(mr74_power_answer) == 24 && offsetof(mr74_power_answer, value) == 16);
MR74_LAYOUT(sizeof(mr74_record_answer) == 40 && offsetof(mr74_record_answer, from) == 24);
MR74_LAYOUT(sizeof(mr74_step_answer) == 56 && offsetof(mr74_step_answer, searcher_next) == 40 &&
            offsetof(mr74_step_answer, searcher_upper) == 41 &&
            offsetof(mr74_step_answer, searcher_start) == 42 &&
            offsetof(mr74_step_answer, reader_next) == 48 &&
            offsetof(mr74_step_answer, reader_upper) == 49 &&
            offsetof(mr74_step_answer, reader_start) == 50);
#undef MR74_LAYOUT

#ifdef __cplusplus
}
#endif

#endif
