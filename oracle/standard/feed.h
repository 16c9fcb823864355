/* Feeds, their records, and what a reader's line says: 01, "Feed and program". Behind the kinds of
 * 01 are those of the resonance watch, which select does not know: oracle/src/selection/watched.rs
 * has their bodies and lines. */
#ifndef FEED_H
#define FEED_H

#include <cstdint>
#include <fstream>
#include <iostream>
#include <iterator>
#include <string>
#include <vector>

#include "readers.h"

inline const char *const NAMES[] = {"reset", "open",  "pitch", "pulses",   "gain",  "filter",
                                    "lag",   "fresh", "watch", "spectrum", "limit", "commit"};
enum Kind {
    RESET, OPEN, PITCH, PULSES, GAIN, FILTER, LAG,
    FRESH, WATCH, SPECTRUM, LIMIT, COMMIT, KINDS
};
inline const size_t BODIES[] = {0, 160, 551, 163, 245, 184, 2, 0, 15, 20, 2, 2};

/* The kinds that select knows. */
const int SELECTED = FRESH;

struct Record {
    uint8_t kind;
    const uint8_t *body;
};

/* Number 0: not refused. */
struct Refusal {
    int number;
    int detail;
};

/* Detector, searcher, lag reader and resonance watch. */
struct State {
    int16_t history[HISTORY] = {};
    int16_t searched = 40, expected = 1;
    int16_t read = 40, due = 1;
    watch_state watched = {};
};

/* A record with the state before it, as the readers take it. */
struct Call {
    Kind kind = RESET;
    int16_t words[HISTORY + HALF_FRAME];
    pitch_call pitch;
    pulse_call pulses;
    gain_call gain;
    filter_call filter;
    lag_call lag;
    watch_call watched;
};

inline int16_t word(const uint8_t *bytes)
{
    return int16_t(bytes[0] << 8 | bytes[1]);
}

inline const uint8_t *words(const uint8_t *bytes, int16_t *list, int count)
{
    for (int i = 0; i < count; i++, bytes += 2)
        list[i] = word(bytes);
    return bytes;
}

inline std::vector<uint8_t> read_file(const std::string &name)
{
    std::ifstream file(name, std::ios::binary);
    if (!file) {
        std::cerr << name << ": cannot be read\n";
        exit(2);
    }
    return {std::istreambuf_iterator<char>(file), {}};
}

/* The next record of a feed, of so many kinds; false at its end. Numbers 9 and 10 end it too. */
struct Reading {
    const std::vector<uint8_t> &bytes;
    int kinds;
    size_t at = 0;

    bool next(Record &record, Refusal &refusal)
    {
        if (at == bytes.size())
            return false;
        record.kind = bytes[at++];
        record.body = bytes.data() + at;
        refusal = {0, 0};
        size_t left = bytes.size() - at;
        if (record.kind >= kinds)
            refusal = {9, record.kind};
        else if (left < BODIES[record.kind])
            refusal = {10, int(left)};
        at = refusal.number ? bytes.size() : at + BODIES[record.kind];
        return true;
    }
};

/* What a record calls for, or by which number 01 turns it down: the standard has no refusals, so
 * they are told here, before any reader is asked. */
inline Refusal call_of(const Record &record, const State &state, Call &call)
{
    const uint8_t *body = record.body;
    call.kind = Kind(record.kind);
    switch (call.kind) {
    case OPEN:
        std::copy(state.history, state.history + HISTORY, call.words);
        words(body, call.words + HISTORY, HALF_FRAME);
        break;
    case PITCH: {
        pitch_call &pitch = call.pitch;
        pitch.previous = state.searched;
        pitch.subframe = *body++;
        body = words(body, pitch.excitation, PAST + SUBFRAME);
        body = words(body, pitch.target, SUBFRAME);
        body = words(body, pitch.impulse, SUBFRAME);
        if (pitch.subframe < 1 || pitch.subframe > 4)
            return {2, pitch.subframe};
        for (int i = 0; i < 2; i++) {
            pitch.lags[i] = body[i];
            if (pitch.lags[i] < 20 || pitch.lags[i] > 143)
                return {3, pitch.lags[i]};
        }
        if (pitch.subframe != state.expected)
            return {4, state.expected};
        break;
    }
    case PULSES: {
        pulse_call &pulses = call.pulses;
        body = words(body, pulses.target, SUBFRAME);
        body = words(body, pulses.impulse, SUBFRAME);
        pulses.lag = *body++;
        pulses.gain = word(body);
        if (pulses.lag < 19 || pulses.lag > 144)
            return {6, pulses.lag};
        break;
    }
    case GAIN: {
        gain_call &gain = call.gain;
        body = words(body, gain.target, SUBFRAME);
        body = words(body, gain.adaptive, SUBFRAME);
        body = words(body, gain.filtered, SUBFRAME);
        gain.exponent = word(body);
        gain.fraction = word(body + 2);
        if (body[4] > 1)
            return {2, body[4]};
        if (gain.exponent < -128 || gain.exponent > 127)
            return {7, gain.exponent};
        if (gain.fraction < 0)
            return {14, gain.fraction + 65536};
        gain.limit = body[4] ? 15565 : 32767;
        break;
    }
    case FILTER: {
        filter_call &filter = call.filter;
        body = words(body, filter.speech, ORDER + SUBFRAME);
        body = words(body, filter.coefficients, ORDER + 1);
        body = words(body, filter.quantized, ORDER + 1);
        body = words(body, filter.error, ORDER);
        words(body, filter.weighting, ORDER);
        break;
    }
    case LAG:
        call.lag = {state.read, body[0], body[1]};
        if (body[0] < 1 || body[0] > 4)
            return {2, body[0]};
        if (body[0] != state.due)
            return {4, state.due};
        if (body[0] % 2 == 0 && body[1] > 31)
            return {5, body[1]};
        break;
    case WATCH:
        call.watched.state.count = *body++;
        call.watched.state.resonant = call.watched.state.count >= 12;
        words(body, call.watched.state.gains, GAINS);
        break;
    case FRESH:
        call.watched.state = state.watched;
        break;
    case SPECTRUM:
        call.watched.state = state.watched;
        words(body, call.watched.spectrum, ORDER);
        break;
    case LIMIT:
    case COMMIT:
        call.watched.state = state.watched;
        call.watched.gain = word(body);
        break;
    default:
        break;
    }
    return {0, 0};
}

inline answer answer_of(const reader &reader, const Call &call)
{
    answer told = {};
    switch (call.kind) {
    case OPEN: reader.open(call.words, &told); break;
    case PITCH: reader.pitch(&call.pitch, &told); break;
    case PULSES: reader.pulses(&call.pulses, &told); break;
    case GAIN: reader.gain(&call.gain, &told); break;
    case FILTER: reader.filter(&call.filter, &told); break;
    case LAG: reader.lag(&call.lag, &told); break;
    case FRESH: reader.fresh(&call.watched, &told); break;
    case SPECTRUM: reader.spectrum(&call.watched, &told); break;
    case LIMIT: reader.limit(&call.watched, &told); break;
    case COMMIT: reader.commit(&call.watched, &told); break;
    default: break;
    }
    return told;
}

/* The line of an answer, without the record's number. */
inline std::string line_of(Kind kind, const answer &told)
{
    std::string line = NAMES[kind];
    for (int i = 0; i < told.count; i++)
        line += ' ' + std::to_string(told.fields[i]);
    if (kind == PITCH || kind == LAG) {
        const int32_t *lag = told.fields + (kind == PITCH);
        int32_t thirds = 3 * lag[0] + lag[1];
        line += ' ' + std::to_string(thirds <= 0 ? 0 : 24000 / thirds);
    }
    return line;
}

inline std::string line_of(const Refusal &refusal)
{
    return "refused " + std::to_string(refusal.number) + ' ' + std::to_string(refusal.detail);
}

/* The state after a call that was answered by these numbers. */
inline void advance(State &state, const Call &call, const int32_t *fields)
{
    watch_state &watched = state.watched;
    switch (call.kind) {
    case RESET:
        state = State();
        break;
    case OPEN:
        std::copy(call.words + HALF_FRAME, call.words + HALF_FRAME + HISTORY, state.history);
        break;
    case PITCH:
        state.searched = fields[1];
        state.expected = call.pitch.subframe % 4 + 1;
        break;
    case LAG:
        state.read = fields[0];
        state.due = call.lag.subframe % 4 + 1;
        break;
    case FRESH:
        watched.resonant = 0;
        watched.count = fields[0];
        std::copy(fields + 1, fields + 1 + GAINS, watched.gains);
        break;
    case WATCH:
        watched = call.watched.state;
        break;
    case SPECTRUM:
        watched.resonant = fields[0];
        watched.count = fields[1];
        break;
    case COMMIT:
        std::copy(fields, fields + GAINS, watched.gains);
        break;
    default:
        break;
    }
}

inline const char *why(const Call &call)
{
    switch (call.kind) {
    case OPEN: return why_open(call.words);
    case PITCH: return why_pitch(&call.pitch);
    case PULSES: return why_pulses(&call.pulses);
    case GAIN: return why_gain(&call.gain);
    case FILTER: return why_filter(&call.filter);
    case SPECTRUM: return why_spectrum(&call.watched);
    default: return "elsewhere";
    }
}

#endif
