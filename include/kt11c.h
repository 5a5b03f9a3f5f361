/* kt11c.h: the KT11-C memory management unit as a static library (libboard.a), the replay of a recording as
 * another (libtape.a), and the writing and reading of recordings as a third (libbench.a).
 *
 * The unit keeps no state of its own. The caller lends its registers, 100 words of 16 bits:
 *     0 to 47   page address registers (PAR): Kernel I 0 to 7, Kernel D, Supervisor I, D, User I, D
 *    48 to 95   page descriptor registers (PDR) in the same order
 *    96 to 99   SR0, SR1, SR2, SR3
 *
 * What the caller owes, since it can't be seen from inside: `store` points to `words` words that are there and
 * that nothing else reads or writes during the call. Everything else is judged: any numbers, and a count
 * other than 100, get an answer.
 *
 * Every call on the unit answers one number. Its top four bits say what it is:
 *     1  granted   bits 17:0 are the byte; bit 24 is set if the reference traps; bits 23:18 are the place of the page
 *                  that served, 0 to 47 counted as in the store, or 63 for none: relocation is off
 *     2  aborted   bit 2 non-resident, bit 1 length, bit 0 read-only
 *     3  a word    bits 15:0
 *     4  done
 *     5  refused   bits 3:0 are the number, and not a bit of the store has changed:
 *                  1 the store isn't 100 words      6 register address above 777777 (octal)
 *                  2 mode above 3                   7 register address odd
 *                  3 space above 1                  8 even, but no register's address
 *                  4 access above 1                 9 noted register above 7, or amount 0 or out of range
 *                  5 phase above 1                 10 both bytes of SR1 are in use
 */
#ifndef KT11C_H
#define KT11C_H

#include <stdbool.h>
#include <stddef.h>
#include <stdint.h>

#ifdef __cplusplus
extern "C" {
#endif

#define KT11C_WORDS 100u

/* The kind of an answer, and its values. */
#define KT11C_KIND(answer) ((answer) >> 28)
#define KT11C_GRANTED 1u
#define KT11C_ABORTED 2u
#define KT11C_WORD 3u
#define KT11C_DONE 4u
#define KT11C_REFUSED 5u

#define KT11C_BYTE(answer) ((answer) & 0x3ffffu)
#define KT11C_TRAP(answer) (((answer) >> 24) & 1u)
#define KT11C_PLACE(answer) (((answer) >> 18) & 0x3fu)
#define KT11C_NO_PAGE 63u
#define KT11C_NONRESIDENT(answer) (((answer) >> 2) & 1u)
#define KT11C_LENGTH(answer) (((answer) >> 1) & 1u)
#define KT11C_READONLY(answer) ((answer) & 1u)
#define KT11C_VALUE(answer) ((uint16_t)((answer) & 0xffffu))
#define KT11C_NUMBER(answer) ((answer) & 0xfu)

/* A reference: mode 0 Kernel, 1 Supervisor, 2 illegal, 3 User; space 0 instruction stream, 1 data;
 * access 0 read, 1 write; phase 0 instruction, 1 interrupt or trap sequence.
 * Granted, aborted, or refused by 1 to 5. It moves no data. */
uint32_t kt11c_reference(uint16_t *store, size_t words, uint32_t mode, uint32_t space, uint32_t access,
                         uint32_t phase, uint16_t va);

/* A register read: a word, or refused by 1, 6, 7 or 8. The store stays as it is. */
uint32_t kt11c_read(const uint16_t *store, size_t words, uint32_t address);

/* A register write: done, or refused by 1, 6, 7 or 8. A PAR or PDR write clears A and W of its page. */
uint32_t kt11c_write(uint16_t *store, size_t words, uint32_t address, uint16_t value);

/* An instruction starts at va: unless SR0 is frozen, SR1 becomes 0 and SR2 becomes va. Done, or refused by 1. */
uint32_t kt11c_instruction(uint16_t *store, size_t words, uint16_t va);

/* An interrupt or trap starts by vector: unless SR0 is frozen, SR1 becomes 0 and SR2 the vector. Done, or refused by 1. */
uint32_t kt11c_interrupt(uint16_t *store, size_t words, uint16_t vector);

/* General register 0 to 7 changed by an amount from -16 to 15 but not 0: noted in SR1 unless SR0 is frozen.
 * Done, or refused by 1, 9 or 10. */
uint32_t kt11c_change(uint16_t *store, size_t words, uint32_t general_register, int32_t amount);

/* INIT: SR0 to SR3 become 0; PAR and PDR stay. Done, or refused by 1. */
uint32_t kt11c_init(uint16_t *store, size_t words);

/* Replaying a recording (libtape.a), a piece at a time.
 *
 * A recording comes in pieces, cut anywhere: in the middle of a record, a byte at a time, empty ones too. However it is
 * cut, the lines and the registers at the end are those of the uncut recording. Between two calls `state` holds what is
 * to be kept, eleven words, all 0 before the first byte:
 *     0 to 6  the bytes of a record that is begun and not whole        9  1 if the run is over
 *     7       how many of them there are                              10  how many bytes of its piece the last call took
 *     8       how many bytes of the recording came before them
 *
 * Each event happens on the store, and its line goes to `out`, while the next line fits what is left of `room`. Where it
 * does not, neither does its event happen, and the bytes from there on are not taken: the next call is given them again.
 * `last` says that nothing comes after this piece; it may be empty. Answers how many bytes of `out` were written; the
 * bytes beyond them stay. With a room of KT11C_LINE bytes or more every call that offers a byte, or says that none comes
 * after, gets on:
 *
 *     uint64_t state[KT11C_STATE] = {0};
 *     while (!KT11C_OVER(state)) {
 *         size_t got = fread(piece, 1, sizeof piece, in), at = 0;
 *         if (got == 0 && ferror(in))
 *             break;
 *         do {
 *             size_t n = kt11c_feed(store, KT11C_WORDS, state, piece + at, got - at, got == 0, out, sizeof out);
 *             fwrite(out, 1, n, stdout);
 *             at += KT11C_TAKEN(state);
 *         } while (at < got);
 *     }
 *
 * The run is over after the last line of the last piece, and after a refusal by 1 (the store isn't 100 words), 11
 * (unknown kind), 12 (the recording's end cuts a record short) or 13 (a byte beyond 16,777,216 came; the records wholly
 * inside that limit have their lines before it). Whatever a call is given then, it takes, and writes nothing.
 *
 * kt11c_replay is the same for a whole recording in one call, from the record at place `at` on, 0 for the first. With a
 * room of KT11C_TRANSCRIPT bytes it writes the whole transcript of any recording: the longest is that of 4,194,304
 * register reads, which fill the limit, and a byte beyond it: 4,194,304 * 9 + 5 bytes. It does not say how far it came:
 * with less room use kt11c_feed.
 *
 * The caller owes the same as above for `piece` and `recording` (which are only read), `state` and `out`; none of them
 * overlap. */
#define KT11C_STATE 11u
#define KT11C_OVER(state) ((state)[9])
#define KT11C_TAKEN(state) ((size_t)(state)[10])
#define KT11C_LINE 14u
#define KT11C_TRANSCRIPT 37748741u

size_t kt11c_feed(uint16_t *store, size_t words, uint64_t *state, const uint8_t *piece, size_t bytes, bool last,
                  uint8_t *out, size_t room);

size_t kt11c_replay(uint16_t *store, size_t words, const uint8_t *recording, size_t bytes, size_t at,
                    uint8_t *out, size_t room);

/* Writing a recording (libbench.a).
 *
 * Each call appends the one record of its event to the `used` bytes at the start of `buffer`, which has `room`
 * bytes. It answers 6 in its top four bits and how many bytes were appended, 1 to 7, in bits 2:0:
 *     used += KT11C_APPENDED(answer)
 * or 5 and a refusal's number in bits 3:0, and then not a byte has changed. A field too large for its bytes is
 * refused first, the lowest number alone:
 *     2 mode, 3 space, 4 access, 5 phase above 255       6 address above 77777777 (octal)
 *     9 register above 255, or amount outside -128 to 127
 * and then 14 a record that does not fit in what is left; a `used` beyond `room` leaves nothing. An event that
 * fits is written even if the unit would refuse it. The caller owes the same for `buffer` as above for `store`. */
#define KT11C_RECORDED 6u
#define KT11C_APPENDED(answer) ((answer) & 0x7u)

uint32_t kt11c_record_reference(uint8_t *buffer, size_t room, size_t used, uint32_t mode, uint32_t space,
                                uint32_t access, uint32_t phase, uint16_t va);
uint32_t kt11c_record_read(uint8_t *buffer, size_t room, size_t used, uint32_t address);
uint32_t kt11c_record_write(uint8_t *buffer, size_t room, size_t used, uint32_t address, uint16_t value);
uint32_t kt11c_record_instruction(uint8_t *buffer, size_t room, size_t used, uint16_t va);
uint32_t kt11c_record_interrupt(uint8_t *buffer, size_t room, size_t used, uint16_t vector);
uint32_t kt11c_record_change(uint8_t *buffer, size_t room, size_t used, uint32_t general_register, int32_t amount);
uint32_t kt11c_record_init(uint8_t *buffer, size_t room, size_t used);

/* Reading a recording (libbench.a), record after record from place 0 on.
 *
 * What stands at place `at` as one number of 64 bits. Its top four bits say what it is:
 *     0  the end of the recording, or a place beyond it
 *     5  refused   bits 3:0 are the number: 11 unknown record kind, 12 record cut short
 *     7  an event  bits 59:56 are its kind, as in a record: 1 reference, 2 register read, 3 register write,
 *                  4 instruction start, 5 interrupt start, 6 change noted, 7 INIT; below them are its fields
 * KT11C_FOUND tells which (KT11C_KIND is for the 32-bit answers), KT11C_NUMBER a refusal's number.
 * kt11c_place_after answers the place past the record at `at`, and the same place where no whole record stands.
 * The caller owes the same for `recording`, which is only read, as above for `store`. */
#define KT11C_FOUND(event) ((unsigned)((event) >> 60))
#define KT11C_END 0u
#define KT11C_EVENT 7u

#define KT11C_RECORD_KIND(event) ((unsigned)((event) >> 56) & 0xfu)
#define KT11C_REFERENCE 1u
#define KT11C_READ 2u
#define KT11C_WRITE 3u
#define KT11C_INSTRUCTION 4u
#define KT11C_INTERRUPT 5u
#define KT11C_CHANGE 6u
#define KT11C_INIT 7u
#define KT11C_EVENT_MODE(event) ((uint32_t)(event) & 0xffu)            /* kind 1 */
#define KT11C_EVENT_SPACE(event) ((uint32_t)((event) >> 8) & 0xffu)    /* kind 1 */
#define KT11C_EVENT_ACCESS(event) ((uint32_t)((event) >> 16) & 0xffu)  /* kind 1 */
#define KT11C_EVENT_PHASE(event) ((uint32_t)((event) >> 24) & 0xffu)   /* kind 1 */
#define KT11C_EVENT_ADDRESS(event) ((uint32_t)(event) & 0xffffffu)     /* kinds 2 and 3 */
#define KT11C_EVENT_WORD(event) ((uint16_t)((event) >> 32))            /* VA, value or vector: kinds 1, 3, 4 and 5 */
#define KT11C_EVENT_REGISTER(event) ((uint32_t)((event) >> 8) & 0xffu) /* kind 6 */
#define KT11C_EVENT_AMOUNT(event) ((int32_t)((event) & 0xffu) - 128)   /* kind 6 */

uint64_t kt11c_event_at(const uint8_t *recording, size_t bytes, size_t at);
size_t kt11c_place_after(const uint8_t *recording, size_t bytes, size_t at);

#ifdef __cplusplus
}
#endif

#endif
