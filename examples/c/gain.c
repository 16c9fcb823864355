/* Compiles as it stands. With PLAIN a number stands where the sharpening gain belongs: it must not. */
#include "mr74.h"

#ifdef PLAIN
typedef int16_t gain;
#else
typedef mr74_sharpening_gain gain;
#endif

uint16_t positions(const int16_t target[MR74_SUBFRAME], const int16_t impulse[MR74_SUBFRAME],
                   gain sharpening, int16_t written[3][MR74_SUBFRAME])
{
    return mr74_pulse_search(target, MR74_SUBFRAME, impulse, MR74_SUBFRAME, 40, sharpening,
                             written[0], MR74_SUBFRAME, written[1], MR74_SUBFRAME, written[2],
                             MR74_SUBFRAME)
        .positions;
}
