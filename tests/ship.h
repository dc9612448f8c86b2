/* The ship of the C tests. */
#ifndef SHIP_H
#define SHIP_H

#include "zhitomrak.h"

/* Settings without corrections: what the barometer says is the pressure at sea level. With table 1 of RD 52.04.651. */
static inline zhitomrak_settings plain_settings(void)
{
    return (zhitomrak_settings){
        .unit = ZHITOMRAK_UNIT_HPA,
        .psychrometer = 662,
        .count = 2,
        .points = {{8500, 0}, {11000, 0}},
        .anemometer = {.count = 11,
                       .points = {{1, 13}, {2, 22}, {3, 31}, {4, 40}, {5, 49}, {6, 58}, {7, 67}, {8, 76}, {9, 85}, {10, 94}, {20, 188}}},
    };
}

#endif
