/* page-served.txt through the board's library: it prints page-served.lines. */
#include <stdio.h>

#include "kt11c.h"

/* An answer's line, as a replay writes it. */
static void show(uint32_t answer)
{
    switch (KT11C_KIND(answer)) {
    case KT11C_GRANTED:
        printf("G %06o %c ", KT11C_BYTE(answer), KT11C_TRAP(answer) ? 'T' : '-');
        if (KT11C_PLACE(answer) == KT11C_NO_PAGE)
            puts("--");
        else
            printf("%02u\n", KT11C_PLACE(answer));
        break;
    case KT11C_ABORTED:
        printf("A %u%u%u\n", KT11C_NONRESIDENT(answer), KT11C_LENGTH(answer), KT11C_READONLY(answer));
        break;
    case KT11C_WORD:
        printf("R %06o\n", KT11C_VALUE(answer));
        break;
    case KT11C_DONE:
        puts("D");
        break;
    case KT11C_REFUSED:
        printf("X %02u\n", KT11C_NUMBER(answer));
        break;
    }
}

static uint16_t store[KT11C_WORDS]; /* all registers 0 */

static void write_register(uint32_t address, uint16_t value)
{
    show(kt11c_write(store, KT11C_WORDS, address, value));
}

/* A read by Kernel in the instruction phase; space 0 instruction stream, 1 data. */
static void read_at(uint32_t space, uint16_t va)
{
    show(kt11c_reference(store, KT11C_WORDS, 0, space, 0, 0, va));
}

int main(void)
{
    write_register(0772354, 000200); /* PAR Kernel I 6 */
    write_register(0772314, 077406); /* its PDR: 128 blocks, key 6 */
    write_register(0772374, 000200); /* PAR Kernel D 6: the same blocks */
    write_register(0772334, 077406); /* its PDR */
    read_at(1, 0140000);             /* relocation off: no page */
    write_register(0777572, 000001); /* relocation on */
    read_at(1, 0140000);             /* D is not enabled: Kernel I 6, place 6 */
    write_register(0772516, 000004); /* SR3: D for Kernel */
    read_at(1, 0140000);             /* Kernel D 6, place 14 */
    read_at(0, 0140000);             /* Kernel I 6 */
    return 0;
}
