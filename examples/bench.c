/* Writes the whole case of document 01 as a recording, with two records that are refused, and reads it back event by event. */
#include <stdio.h>

#include "kt11c.h"

static uint8_t tape[29]; /* the whole case's bytes, and no more */
static size_t used;

/* What an answer adds to the recording; a refusal is printed. */
static void recorded(uint32_t answer)
{
    if (KT11C_KIND(answer) == KT11C_RECORDED)
        used += KT11C_APPENDED(answer);
    else
        printf("X %02u\n", (unsigned)KT11C_NUMBER(answer));
}

/* An event as its line of text. */
static void print(uint64_t event)
{
    switch (KT11C_RECORD_KIND(event)) {
    case KT11C_REFERENCE:
        printf("reference %o %o %o %o %06o\n", (unsigned)KT11C_EVENT_MODE(event), (unsigned)KT11C_EVENT_SPACE(event),
               (unsigned)KT11C_EVENT_ACCESS(event), (unsigned)KT11C_EVENT_PHASE(event), (unsigned)KT11C_EVENT_WORD(event));
        break;
    case KT11C_READ:
        printf("read %06o\n", (unsigned)KT11C_EVENT_ADDRESS(event));
        break;
    case KT11C_WRITE:
        printf("write %06o %06o\n", (unsigned)KT11C_EVENT_ADDRESS(event), (unsigned)KT11C_EVENT_WORD(event));
        break;
    default:
        printf("kind %u\n", KT11C_RECORD_KIND(event));
    }
}

int main(void)
{
    size_t at = 0;
    uint64_t event;

    recorded(kt11c_record_write(tape, sizeof tape, used, 0772356, 03456));
    recorded(kt11c_record_write(tape, sizeof tape, used, 0772316, 077406));
    recorded(kt11c_record_write(tape, sizeof tape, used, 0777572, 1));
    recorded(kt11c_record_reference(tape, sizeof tape, used, 0, 0, 0, 0, 0167456));
    recorded(kt11c_record_read(tape, sizeof tape, used, 0100000000)); /* 25 bits: refused by 6, though it would fit */
    recorded(kt11c_record_read(tape, sizeof tape, used, 0772316));
    recorded(kt11c_record_init(tape, sizeof tape, used)); /* no byte is left: refused by 14 */

    for (event = kt11c_event_at(tape, used, at); KT11C_FOUND(event) == KT11C_EVENT; event = kt11c_event_at(tape, used, at)) {
        print(event);
        at = kt11c_place_after(tape, used, at);
    }
    printf("%s at byte %u\n", KT11C_FOUND(event) == KT11C_END ? "end" : "refused", (unsigned)at);
    return 0;
}
