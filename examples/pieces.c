/* Replays the whole case of document 01 five bytes at a time, into an output that holds one line. */
#include <stdio.h>

#include "kt11c.h"

static const uint8_t tape[] = {
    0x03, 0xee, 0xf4, 0x03, 0x2e, 0x07,       /* PAR Kernel I 7 */
    0x03, 0xce, 0xf4, 0x03, 0x06, 0x7f,       /* its PDR */
    0x03, 0x7a, 0xff, 0x03, 0x01, 0x00,       /* SR0: relocation on */
    0x01, 0x00, 0x00, 0x00, 0x00, 0x2e, 0xef, /* the reference */
    0x02, 0xce, 0xf4, 0x03,                   /* the PDR read */
};

int main(void)
{
    uint16_t store[KT11C_WORDS] = {0};
    uint64_t state[KT11C_STATE] = {0};
    uint8_t out[KT11C_LINE];
    size_t at = 0;

    while (!KT11C_OVER(state)) {
        size_t left = sizeof tape - at, piece = left < 5 ? left : 5;
        size_t n = kt11c_feed(store, KT11C_WORDS, state, tape + at, piece, left == 0, out, sizeof out);
        fwrite(out, 1, n, stdout);
        at += KT11C_TAKEN(state);
    }
    return 0;
}
