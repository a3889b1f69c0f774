/* Prints the sizes, and what the calls answer on 462 zeros and on a capture from
 * standard input, one bit to a byte; check and the window calls also on all of it.
 * The capture is searched by the plain search too. What was read is made again, made
 * with other pairs, and encoded, also by the plain search; all its pairs are listed. */
#include "balise.h"

#include <stdio.h>
#include <string.h>

static const char *kind_name(unsigned kind)
{
    switch (kind) {
    case BALISE_KIND_250:
        return "250";
    case BALISE_KIND_20:
        return "20";
    case BALISE_KIND_OTHER:
        return "other";
    default:
        return "none";
    }
}

/* The fields of refusal 9, and the bits that have no field. */
static void print_not_word(const char *call, uint64_t answer)
{
    printf("%s %u kind %s word %u %lu\n", call, BALISE_NUMBER(answer),
           kind_name(BALISE_WORD_KIND(answer)), BALISE_WORD_INDEX(answer),
           (unsigned long)((answer >> 8 & 3) | answer >> 32));
}

/* The fields of a reading, the place, and the bits that have no field. */
static void print_reading(const char *call, uint64_t answer)
{
    if (BALISE_NUMBER(answer) == BALISE_REFUSED_NOT_WORD) {
        print_not_word(call, answer);
        return;
    }
    printf("%s %u %u %u %u %u %u %lu %lu\n", call, BALISE_NUMBER(answer),
           BALISE_FORMAT(answer), BALISE_READ_B(answer), BALISE_READ_TURN(answer),
           BALISE_READ_FLIPPED(answer), BALISE_READ_ESB(answer),
           (unsigned long)BALISE_PLACE(answer), (unsigned long)(answer >> 58));
}

/* The fields of an answer of make or check, and the bits that have no field. */
static void print_format(const char *call, uint64_t answer)
{
    if (BALISE_NUMBER(answer) == BALISE_REFUSED_NOT_WORD) {
        print_not_word(call, answer);
        return;
    }
    printf("%s %u %u %lu\n", call, BALISE_NUMBER(answer), BALISE_FORMAT(answer),
           (unsigned long)(answer >> 9));
}

static void print_bits(const uint8_t *bits, int count)
{
    int i;

    for (i = 0; i < count; i++)
        putchar('0' + bits[i]);
    putchar('\n');
}

/* Prints the user bits of a reading, and the telegram made again of them. */
static void print_made(const uint8_t *user, uint64_t reading)
{
    uint8_t telegram[BALISE_TELEGRAM_BITS(BALISE_LONG)];
    unsigned format = BALISE_FORMAT(reading);
    uint64_t answer;

    print_bits(user, BALISE_USER_BITS(format));
    answer = balise_make(user, BALISE_USER_BITS(format), BALISE_READ_B(reading),
                         BALISE_READ_ESB(reading), telegram, sizeof telegram);
    print_format("make", answer);
    print_bits(telegram, BALISE_TELEGRAM_BITS(format));
}

/* Prints what the user bits of a reading give with other pairs: B 0, and the first
 * hundred values of esb. */
static void print_other_pairs(const uint8_t *user, uint64_t reading)
{
    uint8_t telegram[BALISE_TELEGRAM_BITS(BALISE_LONG)];
    size_t m = BALISE_USER_BITS(BALISE_FORMAT(reading));
    uint64_t esb;

    print_format("make", balise_make(user, m, 0, 0, telegram, sizeof telegram));
    for (esb = 0; esb < 100; esb++)
        print_format("make", balise_make(user, m, BALISE_READ_B(reading), esb, telegram,
                                         sizeof telegram));
}

/* Prints what numbers that are too large, and a negative one, give. Returns 1 where
 * one of them is not so refused, or a byte of the output is changed. */
static int print_too_large(const uint8_t *user, uint64_t reading)
{
    uint8_t telegram[BALISE_TELEGRAM_BITS(BALISE_LONG)];
    size_t m = BALISE_USER_BITS(BALISE_FORMAT(reading));
    uint64_t b = BALISE_READ_B(reading), esb = BALISE_READ_ESB(reading);
    uint64_t answers[4];
    int negative = -1, i;
    size_t j;

    memset(telegram, 7, sizeof telegram);
    answers[0] = balise_make(user, m, 4096, esb, telegram, sizeof telegram);
    answers[1] = balise_make(user, m, b, 1024, telegram, sizeof telegram);
    answers[2] = balise_make(user, m, (uint64_t)negative, esb, telegram, sizeof telegram);
    answers[3] = balise_make(user, m, b, (uint64_t)1 << 32 | esb, telegram, 0);
    for (i = 0; i < 4; i++) {
        print_format("make", answers[i]);
        if (BALISE_NUMBER(answers[i]) != BALISE_REFUSED_PAIR_TOO_LARGE)
            return 1;
    }
    for (j = 0; j < sizeof telegram; j++)
        if (telegram[j] != 7)
            return 1;
    return 0;
}

/* The length of the telegrams that use_pair prints. */
static int telegram_bits;

/* Prints a pair and its telegram. */
static void use_pair(uint64_t b, uint64_t esb, const uint8_t *output)
{
    printf("pair %lu %lu\n", (unsigned long)b, (unsigned long)esb);
    print_bits(output, telegram_bits);
}

/* Prints all pairs of a block: the loop is that of balise.h. */
static void print_pairs(const uint8_t *block, size_t block_len, uint8_t *output,
                        size_t output_len)
{
    uint64_t b = 0, esb = 0, answer;
    while (b <= 4095) {
        answer = balise_next(block, block_len, b, esb, output, output_len);
        if (BALISE_NUMBER(answer) != 0 || BALISE_NO_MORE(answer))
            break;
        b = BALISE_NEXT_B(answer);
        esb = BALISE_NEXT_ESB(answer);
        use_pair(b, esb, output);
        b += esb == 1023;
        esb = (esb + 1) % 1024;
    }
}

/* Prints the fields of an answer of next, and the bits that have no field. */
static void print_next(uint64_t answer)
{
    printf("next %u %u %u %u %u %lu\n", BALISE_NUMBER(answer), BALISE_FORMAT(answer),
           BALISE_NEXT_B(answer), BALISE_NEXT_ESB(answer), BALISE_NO_MORE(answer),
           (unsigned long)(answer >> 32));
}

/* Prints what is next from some starts, lent room and not. Returns 1 where a byte of
 * the output is changed by an answer without a pair. */
static int print_starts(const uint8_t *user, uint64_t reading)
{
    uint8_t telegram[BALISE_TELEGRAM_BITS(BALISE_LONG)];
    size_t m = BALISE_USER_BITS(BALISE_FORMAT(reading));
    size_t n = BALISE_TELEGRAM_BITS(BALISE_FORMAT(reading)), j;
    uint64_t b = BALISE_READ_B(reading), esb = BALISE_READ_ESB(reading);
    int negative = -1;

    print_next(balise_next(user, m, 0, 0, telegram, sizeof telegram));
    print_next(balise_next(user, m, b, esb, telegram, n));
    print_next(balise_next(user, m, b + 1, 0, telegram, n));
    memset(telegram, 7, sizeof telegram);
    print_next(balise_next(user, m, 4095, 1023, telegram, n));
    print_next(balise_next(user, m - 1, b, esb, telegram, n));
    print_next(balise_next(telegram, m, b, esb, telegram + m, 0));
    print_next(balise_next(user, m, 4096, esb, telegram, 0));
    print_next(balise_next(user, m, b, 1024, telegram, n));
    print_next(balise_next(user, m, (uint64_t)negative, esb, telegram, n));
    print_next(balise_next(user, m, b, (uint64_t)1 << 32 | esb, telegram, n));
    print_next(balise_next(user, m, b, esb, telegram, n - 1));
    for (j = 0; j < sizeof telegram; j++)
        if (telegram[j] != 7)
            return 1;
    return 0;
}

/* Prints the answer of one of the encoders, and the telegram. */
static void print_encoded(const char *call, uint64_t answer, const uint8_t *telegram)
{
    printf("%s %u %u %u %u %lu\n", call, BALISE_NUMBER(answer), BALISE_FORMAT(answer),
           BALISE_ENCODED_B(answer), BALISE_ENCODED_ESB(answer),
           (unsigned long)BALISE_ENCODED_COUNT(answer));
    print_bits(telegram, BALISE_TELEGRAM_BITS(BALISE_FORMAT(answer)));
}

int main(void)
{
    static uint8_t capture[BALISE_CAPTURE_LIMIT + 1];
    uint8_t zeros[BALISE_WINDOW_BITS(BALISE_SHORT)] = {0};
    uint8_t user[BALISE_USER_BITS(BALISE_LONG)];
    uint8_t telegram[BALISE_TELEGRAM_BITS(BALISE_LONG)];
    size_t length, i;
    unsigned format;
    uint64_t answer;

    for (format = BALISE_LONG; format <= BALISE_SHORT; format++)
        printf("sizes %d %d %d\n", BALISE_USER_BITS(format), BALISE_TELEGRAM_BITS(format),
               BALISE_WINDOW_BITS(format));
    printf("limit %d\n", BALISE_CAPTURE_LIMIT);

    memset(user, 7, sizeof user);
    print_reading("read", balise_read(zeros, sizeof zeros, user, sizeof user));
    print_reading("read_well_formed",
                  balise_read_well_formed(zeros, sizeof zeros, user, sizeof user));
    for (i = 0; i < sizeof user; i++)
        if (user[i] != 7)
            return 1;

    length = fread(capture, 1, sizeof capture, stdin);
    print_format("check", balise_check(capture, length));
    print_reading("read", balise_read(capture, length, user, sizeof user));
    answer = balise_read_well_formed(capture, length, user, sizeof user);
    print_reading("read_well_formed", answer);
    if (BALISE_NUMBER(answer) == 0)
        print_made(user, answer);
    print_reading("search_plain", balise_search_plain(capture, length));
    answer = balise_search(capture, length);
    print_reading("search", answer);
    if (BALISE_NUMBER(answer) != 0)
        return 0;

    format = BALISE_FORMAT(answer);
    answer = balise_read(capture + BALISE_PLACE(answer), BALISE_WINDOW_BITS(format), user,
                         sizeof user);
    print_reading("read", answer);
    print_made(user, answer);
    print_other_pairs(user, answer);
    if (print_too_large(user, answer) || print_starts(user, answer))
        return 1;
    telegram_bits = BALISE_TELEGRAM_BITS(format);
    print_pairs(user, BALISE_USER_BITS(format), telegram, sizeof telegram);

    answer = balise_encode_plain(user, BALISE_USER_BITS(format), telegram, sizeof telegram);
    print_encoded("encode_plain", answer, telegram);
    memset(telegram, 0, sizeof telegram);
    answer = balise_encode(user, BALISE_USER_BITS(format), telegram, sizeof telegram);
    print_encoded("encode", answer, telegram);

    print_format("check", balise_check(telegram, BALISE_TELEGRAM_BITS(format)));
    telegram[0] ^= 1;
    answer = balise_check(telegram, BALISE_TELEGRAM_BITS(format));
    print_format("check", answer);
    return BALISE_NUMBER(answer) != BALISE_REFUSED_NOT_DIVISIBLE;
}
