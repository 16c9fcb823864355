/* The functions of standard.c by the names under which package.cpp calls them: the package has the
 * same names without `quoted_`. */
#ifndef QUOTED_H
#define QUOTED_H

#include <stdint.h>

#ifdef __cplusplus
extern "C" {
#endif

/* A function of the text, and its first line. */
struct place {
    const char *name;
    int line;
};
extern const struct place quoted_places[];

void quoted_Weight_Ai(int16_t *, const int16_t *, int16_t *);
void quoted_Residu(int16_t *, int16_t *, int16_t *, int16_t);
void quoted_Syn_filt(int16_t *, int16_t *, int16_t *, int16_t, int16_t *, int16_t);
void quoted_comp_corr(int16_t *, int16_t, int16_t, int16_t, int32_t *);
void quoted_Convolve(int16_t *, int16_t *, int16_t *, int16_t);
void quoted_Norm_Corr(int16_t *, int16_t *, int16_t *, int16_t, int16_t, int16_t, int16_t *);
void quoted_getRange(int16_t, int16_t, int16_t, int16_t, int16_t, int16_t *, int16_t *);
void quoted_searchFrac(int16_t *, int16_t *, int16_t, int16_t *, int16_t);
void quoted_cor_h_x(int16_t *, int16_t *, int16_t *, int16_t);
void quoted_set_sign(int16_t *, int16_t *, int16_t *, int16_t);
void quoted_cor_h(int16_t *, int16_t *, int16_t (*)[40]);
void quoted_search_4i40(int16_t *, int16_t *, int16_t (*)[40], int16_t *);

/* The same at 7.4 kbit/s without DTX, in fewer arguments. */
int16_t quoted_lag_max(int32_t *correlations, int16_t *signal, int16_t last, int16_t first,
                       int16_t *value);
int16_t quoted_g_pitch(int16_t *target, int16_t *adaptive, int16_t *correlations);
void quoted_energies(int16_t *target, int16_t *adaptive, int16_t *filtered, int16_t *correlations,
                     int16_t *fractions, int16_t *exponents);
void quoted_sharpen(int16_t *impulse, int16_t lag, int16_t gain);
/* The factors of the weighting filter, 1 for its numerator and 2 for its denominator. */
const int16_t *quoted_gamma(int which);

/* From now on the first clipping is told, or the first behind so many: its operator and its line;
 * line 0: none. */
void await_clipping(long passed_over);
long clippings_so_far(void);
const char *clipping_operator(void);
int clipping_line(void);

#ifdef __cplusplus
}
#endif

#endif
