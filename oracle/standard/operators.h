/* The basic operators of TS 26.073, saturating, written from their descriptions there; they are
 * those of crates/fixed/specs/Operators.antt, which has them as one number each.
 *
 * Two things are kept beside the answers: Overflow, the standard's flag, and the place in the text
 * that clipped, by which a difference is told from another. */
#ifndef OPERATORS_H
#define OPERATORS_H

#include <stdint.h>

typedef int16_t Word16;
typedef int32_t Word32;
typedef int Flag;

#define MAX_16 ((Word16)0x7fff)
#define MAX_32 ((Word32)0x7fffffffL)
#define MIN_32 (-MAX_32 - 1)

/* The operator that clipped, and its line; line 0: none did. */
struct clipping {
    const char *operator_name;
    int line;
};

/* How often was clipped, and the one of these that is told. */
extern Flag Overflow;
extern long clippings, awaited_clipping;
extern struct clipping told_clipping;

/* A difference has no name: it is only compared, so that no answer feels that it was clipped. The
 * gaps of check_lsp are kept: package.cpp looks at those itself. */
static inline void clipped(const char *name, int line)
{
    Overflow = 1;
    if (name && ++clippings == awaited_clipping) {
        told_clipping.operator_name = name;
        told_clipping.line = line;
    }
}

static inline Word16 clip16(int64_t value, const char *name, int line)
{
    if (value > 32767) {
        clipped(name, line);
        return 32767;
    }
    if (value < -32768) {
        clipped(name, line);
        return -32768;
    }
    return (Word16)value;
}

static inline Word32 clip32(int64_t value, const char *name, int line)
{
    if (value > MAX_32) {
        clipped(name, line);
        return MAX_32;
    }
    if (value < MIN_32) {
        clipped(name, line);
        return MIN_32;
    }
    return (Word32)value;
}

/* A shift to the left with clipping by a count from 0 up, and one to the right with floor. */
static inline int64_t raised(int64_t value, int count)
{
    return value * ((int64_t)1 << (count > 32 ? 32 : count));
}

static inline int64_t lowered(int64_t value, int count)
{
    return value >> (count > 32 ? 32 : count);
}

static inline Word16 shl_at(Word16 value, int count, int line)
{
    return count < 0 ? (Word16)lowered(value, -count) : clip16(raised(value, count), "shl", line);
}

static inline Word32 L_shl_at(Word32 value, int count, int line)
{
    return count < 0 ? (Word32)lowered(value, -count) : clip32(raised(value, count), "L_shl", line);
}

static inline Word32 L_mult_at(Word16 a, Word16 b, const char *name, int line)
{
    return clip32((int64_t)2 * a * b, name, line);
}

static inline Word32 L_mac_at(Word32 sum, Word16 a, Word16 b, int line)
{
    return clip32((int64_t)sum + L_mult_at(a, b, "L_mac", line), "L_mac", line);
}

static inline Word32 L_msu_at(Word32 sum, Word16 a, Word16 b, int line)
{
    return clip32((int64_t)sum - L_mult_at(a, b, "L_msu", line), "L_msu", line);
}

static inline Word16 mult_at(Word16 a, Word16 b, int line)
{
    return clip16(lowered((int64_t)a * b, 15), "mult", line);
}

/* A right shift that rounds by the last bit it drops. */
static inline Word32 L_shr_r_at(Word32 value, int count, int line)
{
    if (count > 31)
        return 0;
    Word32 shifted = L_shl_at(value, -count, line);
    return count > 0 && (value & ((Word32)1 << (count - 1))) ? shifted + 1 : shifted;
}

static inline Word16 high_word(Word32 value)
{
    return (Word16)(value >> 16);
}

static inline void split(Word32 value, Word16 *high, Word16 *low)
{
    *high = high_word(value);
    *low = (Word16)((value >> 1) - (Word32)*high * 32768);
}

static inline Word32 Mpy_32_at(Word16 h1, Word16 l1, Word16 h2, Word16 l2, int line)
{
    Word32 sum = L_mult_at(h1, h2, "Mpy_32", line);
    sum = L_mac_at(sum, mult_at(h1, l2, line), 1, line);
    return L_mac_at(sum, mult_at(l1, h2, line), 1, line);
}

static inline Word32 Mpy_32_16_at(Word16 high, Word16 low, Word16 n, int line)
{
    Word32 sum = L_mult_at(high, n, "Mpy_32_16", line);
    return L_mac_at(sum, mult_at(low, n, line), 1, line);
}

/* 31 for -1, 0 for 0. */
static inline Word16 places(Word32 value)
{
    Word16 count = 0;
    if (value == 0)
        return 0;
    if (value < 0)
        value = ~value;
    if (value == 0)
        return 31;
    for (; value < 0x40000000L; value <<= 1)
        count++;
    return count;
}

/* Defined by the standard for 0 <= a <= b, 0 < b; G_pitch forms no other. */
static inline Word16 quotient(Word16 a, Word16 b)
{
    if (a < 0 || b <= 0)
        return 0;
    return a >= b ? 32767 : (Word16)(((Word32)a << 15) / b);
}

#define add(a, b) clip16((int64_t)(Word16)(a) + (Word16)(b), "add", __LINE__)
#define sub(a, b) clip16((int64_t)(Word16)(a) - (Word16)(b), 0, __LINE__)
#define negate(a) clip16(-(int64_t)(Word16)(a), "negate", __LINE__)
#define L_add(a, b) clip32((int64_t)(Word32)(a) + (Word32)(b), "L_add", __LINE__)
#define L_sub(a, b) clip32((int64_t)(Word32)(a) - (Word32)(b), 0, __LINE__)
#define L_abs(a) clip32((a) < 0 ? -(int64_t)(a) : (int64_t)(a), "L_abs", __LINE__)
#define L_mult(a, b) L_mult_at((a), (b), "L_mult", __LINE__)
#define L_mac(s, a, b) L_mac_at((s), (a), (b), __LINE__)
#define L_msu(s, a, b) L_msu_at((s), (a), (b), __LINE__)
#define mult(a, b) mult_at((a), (b), __LINE__)
#define round_word(a) high_word(clip32((int64_t)(a) + 32768, "round", __LINE__))
#define extract_h(a) high_word(a)
#define extract_l(a) ((Word16)(a))
#define L_deposit_h(a) ((Word32)(a) * 65536)
#define L_Extract(a, high, low) split((a), (high), (low))
#define Mpy_32(h1, l1, h2, l2) Mpy_32_at((h1), (l1), (h2), (l2), __LINE__)
#define Mpy_32_16(high, low, n) Mpy_32_16_at((high), (low), (n), __LINE__)
#define shl(a, n) shl_at((a), (n), __LINE__)
#define shr(a, n) shl_at((a), -(n), __LINE__)
#define L_shl(a, n) L_shl_at((a), (n), __LINE__)
#define L_shr(a, n) L_shl_at((a), -(n), __LINE__)
#define L_shr_r(a, n) L_shr_r_at((a), (n), __LINE__)
#define norm_l(a) places(a)
#define div_s(a, b) quotient((a), (b))

#endif
