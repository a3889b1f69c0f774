/* The proved calls of crates/balise, for C and C++. Link libbalise.a, which
 * `tools/archives balise` writes to target/staticlib/ (x86-64, System V calling
 * convention); it needs memcpy and memset of the C library:
 *   cc -Iinclude prog.c target/staticlib/libbalise.a -o prog
 *
 * Bits are held one to a byte, 0 or 1, earliest sent first. A buffer is passed
 * as a pointer and a length in bytes. Every call ends, whatever the bytes and
 * lengths are, and answers one number: its lowest eight bits are 0, or the
 * number of the refusal. A call keeps no pointer and allocates nothing.
 *
 * Nothing checks
 *   - that a pointer is valid for its length: not NULL, even with length 0, and
 *     the length at most PTRDIFF_MAX;
 *   - that an output overlaps no input;
 *   - that no other thread writes a buffer, or reads an output, during a call.
 * That these declarations, fields and numbers are those of the library's source,
 * crates/balise_c/src/lib.rt and crates/balise/specs/AsNumber.antt, is tested and not proved.
 */
#ifndef BALISE_H
#define BALISE_H

#include <stddef.h>
#include <stdint.h>

#ifdef __cplusplus
extern "C" {
#endif

/* Encodes a block of BALISE_USER_BITS into a telegram.
 * block: 830 or 210 bits. output: at least 1023 or 341 bytes; the telegram goes
 * into its front, and the rest is kept. A refusal keeps every byte.
 * Answer: number, format, BALISE_ENCODED_B, _ESB and _COUNT.
 * Refusals: 1, 2, 3, 4. Refusal 4 has the count of pairs tried.
 * Pairs that cannot be proper are passed over, and counted all the same: a block
 * takes far less than a millisecond as a rule, and refusal 4 some ten. */
uint64_t balise_encode(const uint8_t *block, size_t block_len, uint8_t *output,
                       size_t output_len);

/* Encodes a block by the plain search, which forms and tests each pair in order.
 * Parameters, answer and what is written are those of balise_encode, whatever the
 * block, by proof. It is there to compare balise_encode with, and takes some thousand
 * times as long: seconds for a block without a pair.
 * Refusals: 1, 2, 3, 4. Refusal 4 has the count of pairs tried. */
uint64_t balise_encode_plain(const uint8_t *block, size_t block_len, uint8_t *output,
                             size_t output_len);

/* Makes the well-formed telegram of a block of BALISE_USER_BITS, the scrambling
 * bits b and the extra shaping bits esb, without a search. With the user bits,
 * BALISE_READ_B and BALISE_READ_ESB of a reading it is the telegram that was
 * read: cut at BALISE_READ_TURN, and flipped if BALISE_READ_FLIPPED, it is the
 * window's first 1023 or 341 bits. Whether it is proper, balise_check says.
 * block: 830 or 210 bits. output: at least 1023 or 341 bytes; the telegram goes
 * into its front, and the rest is kept. A refusal keeps every byte.
 * Answer: number, format.
 * Refusals: 1, 2, 27, 3, 9. They are tested in this order, not in that of their
 * numbers. 27: b is over 4095 or esb over 1023, by however much; a negative
 * number, converted, is too large. 9: a word of the telegram, the last ten
 * included, is not in the table; most pairs give this. Refusal 9 has the kind and
 * the index of the first bad word; it is one of the last ten, since the words before
 * them come from the table. */
uint64_t balise_make(const uint8_t *block, size_t block_len, uint64_t b, uint64_t esb,
                     uint8_t *output, size_t output_len);

/* Gives the first pair at or after b, esb with which a block of BALISE_USER_BITS makes
 * a proper telegram, and the telegram. The order is that of counting: by b, and then
 * by esb. From 0, 0 it is the pair and the telegram of balise_encode.
 * block: 830 or 210 bits. output: at least 1023 or 341 bytes; the telegram goes into
 * its front, and the rest is kept. A refusal keeps every byte, and so does an answer
 * with BALISE_NO_MORE.
 * Answer: number, BALISE_NO_MORE; where that is 0 also format, BALISE_NEXT_B and _ESB.
 * The number 0 alone does not say that there is a pair: where there are no more it is 0
 * as well, and the fields of the pair are 0.
 * Refusals: 1, 2, 27, 3. They are tested in this order, not in that of their numbers.
 * 27: b is over 4095 or esb over 1023, by however much; a negative number, converted,
 * is too large.
 * This lists every pair, each once and in order, some hundreds as a rule:
 *   uint64_t b = 0, esb = 0, answer;
 *   while (b <= 4095) {
 *       answer = balise_next(block, block_len, b, esb, output, output_len);
 *       if (BALISE_NUMBER(answer) != 0 || BALISE_NO_MORE(answer))
 *           break;
 *       b = BALISE_NEXT_B(answer);
 *       esb = BALISE_NEXT_ESB(answer);
 *       use_pair(b, esb, output);
 *       b += esb == 1023;
 *       esb = (esb + 1) % 1024;
 *   }
 */
uint64_t balise_next(const uint8_t *block, size_t block_len, uint64_t b, uint64_t esb,
                     uint8_t *output, size_t output_len);

/* Checks a telegram of 1023 or 341 bits.
 * Answer: number, format.
 * Refusals: 1, 2, 6 to 12. Refusal 9 has the kind and the index of the first bad
 * word. */
uint64_t balise_check(const uint8_t *telegram, size_t telegram_len);

/* Reads a window of 1100 or 462 bits of a proper telegram.
 * output: at least 830 or 210 bytes; the user bits go into its front, and the
 * rest is kept. A refusal keeps every byte.
 * Answer: number, format, BALISE_READ_FLIPPED, _B, _TURN and _ESB.
 * Refusals: 1, 2, 3, 5 to 12. Refusal 9 has the kind and the index of the first bad
 * word. With 10, 11 and 12 the telegram in the window is well-formed and not fit to
 * burn.
 * Surely refused, by this call and the next: a window of a well-formed telegram of
 * which one or more bits are changed, all within 75 neighbouring ones, or at most
 * 14 anywhere (16 of a short window), with 5 or 6; one in which 1 to 4 bits were
 * lost at one place or put in there, 21 bits or more from either edge, with 5.
 * docs/DAMAGE.md has it all. */
uint64_t balise_read(const uint8_t *window, size_t window_len, uint8_t *output,
                     size_t output_len);

/* Reads a window of 1100 or 462 bits of a well-formed telegram, proper or not:
 * for boxes that are to be read and not approved. Parameters, answer and what is
 * written are those of balise_read; but where that refuses with 10, 11 or 12, this
 * call reads the window.
 * Refusals: 1, 2, 3, 5 to 9. Refusal 9 has the kind and the index of the first bad
 * word. */
uint64_t balise_read_well_formed(const uint8_t *window, size_t window_len, uint8_t *output,
                                 size_t output_len);

/* Searches a capture of at most 7500 bits for the first window that balise_read
 * accepts: places from 0 up, long before short at one place. A window of a
 * telegram that is well-formed and not proper is passed over.
 * Answer: as balise_read, of the window found, and BALISE_PLACE: the window is
 * capture[place] and on, BALISE_WINDOW_BITS(format) long, and lies in the
 * capture. Its user bits are those that balise_read writes for it.
 * Refusals: 1, 2, 13.
 * After one pass that tests every byte, the time grows at most with the place that
 * is found, or with the length where there is none, whatever the bits. */
uint64_t balise_search(const uint8_t *capture, size_t capture_len);

/* Searches a capture by the plain search, which reads the windows at each place in
 * order. Parameters and answer are those of balise_search, whatever the capture, by
 * proof. It is there to compare balise_search with, and takes some thousand times as
 * long on captures with many windows that are refused.
 * Refusals: 1, 2, 13. */
uint64_t balise_search_plain(const uint8_t *capture, size_t capture_len);

#ifdef __cplusplus
}
#endif

/* ---- the fields of an answer */

/* Any answer: 0, or the refusal. */
#define BALISE_NUMBER(answer) ((unsigned)((uint64_t)(answer) & 0xff))

/* Any answer without a refusal; that of balise_next, where it has a pair. */
#define BALISE_LONG 0
#define BALISE_SHORT 1
#define BALISE_FORMAT(answer) ((unsigned)((uint64_t)(answer) >> 8 & 1))

/* balise_encode and balise_encode_plain: the scrambling bits, the extra shaping
 * bits, and the pairs tried up to this one; the last also of refusal 4. */
#define BALISE_ENCODED_B(answer) ((unsigned)((uint64_t)(answer) >> 9 & 0xfff))
#define BALISE_ENCODED_ESB(answer) ((unsigned)((uint64_t)(answer) >> 21 & 0x3ff))
#define BALISE_ENCODED_COUNT(answer) ((uint32_t)((uint64_t)(answer) >> 31 & 0x7fffff))

/* balise_next: the scrambling bits, the extra shaping bits, and whether there are no
 * more pairs (1); the others are then 0. */
#define BALISE_NEXT_B(answer) ((unsigned)((uint64_t)(answer) >> 9 & 0xfff))
#define BALISE_NEXT_ESB(answer) ((unsigned)((uint64_t)(answer) >> 21 & 0x3ff))
#define BALISE_NO_MORE(answer) ((unsigned)((uint64_t)(answer) >> 31 & 1))

/* balise_read, balise_read_well_formed, balise_search and balise_search_plain: whether
 * the window is flipped (1), the scrambling bits, the turn, and the extra shaping bits.
 * The bits of these last were 0 in earlier versions; no other field moved. */
#define BALISE_READ_FLIPPED(answer) ((unsigned)((uint64_t)(answer) >> 9 & 1))
#define BALISE_READ_B(answer) ((unsigned)((uint64_t)(answer) >> 10 & 0xfff))
#define BALISE_READ_TURN(answer) ((unsigned)((uint64_t)(answer) >> 22 & 0x3ff))
#define BALISE_READ_ESB(answer) ((unsigned)((uint64_t)(answer) >> 48 & 0x3ff))

/* balise_search and balise_search_plain. */
#define BALISE_PLACE(answer) ((size_t)((uint64_t)(answer) >> 32 & 0xffff))

/* Refusal 9: the kind of the first word that is not in the table, and its index,
 * counted from 0 at the left of the telegram turned back and upright: 0 to 92 long, 0
 * to 30 short. The word is bits 11 * index to 11 * index + 10 of that telegram,
 * counted in the same way. In earlier versions the answer was 9 alone, with 0 in these
 * bits: a caller who compared the whole answer with 9 must take BALISE_NUMBER. */
#define BALISE_KIND_250 250 /* in the group of 250 */
#define BALISE_KIND_20 20   /* in the group of 20 */
#define BALISE_KIND_OTHER 0 /* in neither group: simply not in the table */
#define BALISE_WORD_KIND(answer) ((unsigned)((uint64_t)(answer) >> 10 & 0xfff))
#define BALISE_WORD_INDEX(answer) ((unsigned)((uint64_t)(answer) >> 22 & 0x3ff))

/* ---- sizes, by format */

#define BALISE_USER_BITS(format) ((format) == BALISE_LONG ? 830 : 210)
#define BALISE_TELEGRAM_BITS(format) ((format) == BALISE_LONG ? 1023 : 341)
#define BALISE_WINDOW_BITS(format) ((format) == BALISE_LONG ? 1100 : 462)
#define BALISE_CAPTURE_LIMIT 7500

/* ---- refusals, as BALISE_NUMBER gives them: the lowest that applies, except that
 * balise_make and balise_next test 27 before 3 */

#define BALISE_REFUSED_LENGTH 1          /* the length fits no format, or is over the limit */
#define BALISE_REFUSED_NOT_BIT 2         /* a byte other than 0 or 1 */
#define BALISE_REFUSED_OUTPUT_SHORT 3    /* the output is too short */
#define BALISE_REFUSED_NO_PAIR 4         /* no pair gives a proper telegram */
#define BALISE_REFUSED_ENDS_DIFFER 5     /* the ends of the window differ */
#define BALISE_REFUSED_NOT_DIVISIBLE 6   /* not divisible by g */
#define BALISE_REFUSED_NO_TURN 7         /* no turn has this remainder; in check, not turn 0 */
#define BALISE_REFUSED_CONTROL 8         /* the control bits are not 0, 0, 1 */
#define BALISE_REFUSED_NOT_WORD 9        /* a word is not in the table */
#define BALISE_REFUSED_OFF_STEP 10       /* condition 2 fails */
#define BALISE_REFUSED_REPEATING 11      /* condition 3 fails */
#define BALISE_REFUSED_THINNED 12        /* condition 4 fails */
#define BALISE_REFUSED_NO_PLACE 13       /* no place of the capture reads */
#define BALISE_REFUSED_PAIR_TOO_LARGE 27 /* B is over 4095 or esb over 1023 */

#endif
