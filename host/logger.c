/* logger: reads plain strings of eleven bytes from standard input, and prints of each one its verdict and its signed words in
   km, s and half cycles.

       string M clean                      M is the string's number; or `repaired BIT`
       string M clean tauc=.. taugps=..    strings 5 to 15 with their signed words; string 14 has those of an almanac half and those
                                           of frame 5's, since a string alone does not tell which of the two it is
       record vx=.. ax=.. x=.. ..          after string 4, where 1, 2 and 3 came right before it: the signed words of the four
       no N                                the string is refused, for a word out of range with its place: no 10 PLACE
       short COUNT                         so many bytes are left at the end, too few for a string

   Positions are in km, velocities in km/s, accelerations in km/s^2; lambda, di and omega in half cycles; dt in s an orbit and rate in s an
   orbit and orbit; b2 in s a day; the others in s, but for gamma, which is a number. Each is printed with as many decimals as its unit has
   binary places, so what stands there is the satellite's word exactly.

   C99, with spineyarrow.h and libhost.a alone. */
#include "spineyarrow.h"
#include <stdio.h>
#include <string.h>

enum { STRING = SPINEYARROW_STRING_BYTES };

/* each word's name here, and how many binary places its unit has */
static const struct {
    const char *name;
    int places;
} word[SPINEYARROW_WORDS + 1] = {
    [SPINEYARROW_X_VELOCITY] = { "vx", 20 },
    [SPINEYARROW_X_ACCELERATION] = { "ax", 30 },
    [SPINEYARROW_X] = { "x", 11 },
    [SPINEYARROW_Y_VELOCITY] = { "vy", 20 },
    [SPINEYARROW_Y_ACCELERATION] = { "ay", 30 },
    [SPINEYARROW_Y] = { "y", 11 },
    [SPINEYARROW_GAMMA] = { "gamma", 40 },
    [SPINEYARROW_Z_VELOCITY] = { "vz", 20 },
    [SPINEYARROW_Z_ACCELERATION] = { "az", 30 },
    [SPINEYARROW_Z] = { "z", 11 },
    [SPINEYARROW_TAU] = { "tau", 30 },
    [SPINEYARROW_DELTA_TAU] = { "dtau", 30 },
    [SPINEYARROW_TAU_C] = { "tauc", 31 },
    [SPINEYARROW_TAU_GPS] = { "taugps", 30 },
    [SPINEYARROW_TAU_A] = { "taua", 18 },
    [SPINEYARROW_LAMBDA] = { "lambda", 20 },
    [SPINEYARROW_DELTA_I] = { "di", 20 },
    [SPINEYARROW_OMEGA] = { "omega", 15 },
    [SPINEYARROW_DELTA_T] = { "dt", 9 },
    [SPINEYARROW_DELTA_T_RATE] = { "rate", 14 },
    [SPINEYARROW_B1] = { "b1", 10 },
    [SPINEYARROW_B2] = { "b2", 16 },
};

/* the signed words of string m, from first to last; string 14 has two rows */
static const struct {
    int first, last;
} of_string[16] = {
    { 0, 0 }, { 1, 3 }, { 4, 6 }, { 7, 10 }, { 11, 12 }, { 13, 14 }, { 15, 17 }, { 18, 20 },
    { 15, 17 }, { 18, 20 }, { 15, 17 }, { 18, 20 }, { 15, 17 }, { 18, 20 }, { 15, 17 }, { 18, 20 },
};

static void print_no(uint32_t told)
{
    printf("no %u", (unsigned)(told & 255));
    if ((told & 255) == 10) printf(" %u", (unsigned)(told >> 8 & 255));
    putchar('\n');
}

static void print_numbers(int first, int last, const double *value)
{
    for (int i = first; i <= last; i++) printf(" %s=%.*f", word[i].name, word[i].places, value[i]);
}

/* reads the words first to last of a string: 0, or why not */
static uint32_t read_words(const uint8_t *s, int first, int last, double *value)
{
    uint32_t told = 0;
    for (int i = first; i <= last && !told; i++) told = spineyarrow_word(s, STRING, (uint8_t)i, &value[i]);
    return told;
}

static void print_record(uint8_t four[4][STRING])
{
    int32_t raw[26];
    double number[13];
    uint32_t told = spineyarrow_immediate(four[0], STRING, four[1], STRING, four[2], STRING, four[3], STRING, raw, number + 1);
    if (told) {
        print_no(told);
        return;
    }
    printf("record");
    print_numbers(SPINEYARROW_X_VELOCITY, SPINEYARROW_DELTA_TAU, number);
    putchar('\n');
}

/* prints the line of a string; m, or 0 where it is refused */
static int print_string(const uint8_t *s)
{
    uint8_t whole[STRING] = { 0 };
    double value[SPINEYARROW_WORDS + 1];
    uint32_t verdict = spineyarrow_check(s, STRING, whole, STRING), told = verdict & 255;
    int m = whole[0] / 8 % 16;
    if (!told) told = read_words(s, of_string[m].first, of_string[m].last, value);
    if (!told && m == 14) told = read_words(s, SPINEYARROW_B1, SPINEYARROW_B2, value);
    if (told) {
        print_no(told);
        return 0;
    }
    printf("string %d ", m);
    if (verdict >> 8 & 255) printf("repaired %u", (unsigned)(verdict >> 16 & 255));
    else printf("clean");
    if (m > 4) print_numbers(of_string[m].first, of_string[m].last, value);
    if (m == 14) print_numbers(SPINEYARROW_B1, SPINEYARROW_B2, value);
    putchar('\n');
    return m;
}

int main(void)
{
    uint8_t s[STRING], four[4][STRING];
    int kept = 0; /* so many of the strings 1 to 4 have come one after the other */
    size_t got;
    while ((got = fread(s, 1, STRING, stdin)) == STRING) {
        int m = print_string(s);
        kept = m == kept + 1 && m <= 4 ? m : m == 1;
        if (kept) memcpy(four[kept - 1], s, STRING);
        if (kept == 4) {
            print_record(four);
            kept = 0;
        }
    }
    if (got) printf("short %u\n", (unsigned)got);
    return ferror(stdin) || fflush(stdout) || ferror(stdout);
}
