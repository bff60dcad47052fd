/* The lines of answers, made without a C library. */
#include "lines.h"

enum { LONGEST = 340 }; /* a record of 26 numbers and its start, each at its longest, has 325 characters */

static char line[LONGEST + 2];
static unsigned used;

static void put(char c)
{
    if (used < LONGEST) line[used++] = c;
}

static void put_text(const char *text)
{
    while (*text) put(*text++);
}

static void put_number(uint64_t number)
{
    char digits[20];
    unsigned count = 0;
    do digits[count++] = (char)('0' + number % 10);
    while (number /= 10);
    while (count) put(digits[--count]);
}

static void put_signed(int64_t number)
{
    if (number < 0) put('-');
    put_number((uint64_t)(number < 0 ? -number : number));
}

static void put_hex(uint64_t number, int digits)
{
    while (digits--) put("0123456789abcdef"[number >> 4 * digits & 15]);
}

static void end_line(void)
{
    line[used] = '\n';
    line[used + 1] = 0;
    used = 0;
    write_line(line);
}

/* `no N`, with what stands above the number: the place of a RANGE, and for all others nothing */
static void put_no(uint64_t told)
{
    put_text("no ");
    put_number(told & 255);
    if (told >> 8) {
        put(' ');
        put_number(told >> 8);
    }
}

/* begins the line of a call that tells nothing in its number: whether it was taken */
static int put_ok(uint64_t told)
{
    if (told) put_no(told);
    else put_text("ok");
    return !told;
}

static void put_spaced(int64_t number)
{
    put(' ');
    put_signed(number);
}

void print_offer(uint64_t told)
{
    if (told & 255) {
        put_no(told);
    } else {
        put_text("taken");
        put_spaced(told >> 8 & 255);  /* m */
        put_spaced(told >> 24 & 255); /* the repaired bit */
        put_spaced(told >> 32 & 255); /* news */
        put_spaced((int64_t)(told >> 40)); /* polarity */
    }
    end_line();
}

void print_reset(uint64_t told)
{
    put_ok(told);
    end_line();
}

void print_end(uint64_t told, uint64_t place)
{
    if (told) {
        put_no(told);
        put(' ');
        put_number(place);
    } else {
        put_text("end");
    }
    end_line();
}

void print_summary(uint64_t told, const uint64_t panel[3])
{
    if (put_ok(told)) {
        for (int i = 0; i < 3; i++) {
            put(' ');
            put_number(panel[i]);
        }
    }
    end_line();
}

void print_health(uint64_t told)
{
    if (put_ok(told & 255)) put_spaced((int64_t)(told >> 8));
    end_line();
}

static void put_words(const int32_t *words, int count)
{
    for (int i = 0; i < count; i++) put_spaced(words[i]);
}

void print_record(uint64_t told, const int32_t words[26], uint32_t start)
{
    if (put_ok(told)) {
        put_words(words, 26);
        put_spaced(start);
    }
    end_line();
}

void print_tallies(uint64_t told, const uint32_t tallies[14])
{
    if (put_ok(told)) {
        for (int i = 0; i < 14; i++) put_spaced(tallies[i]);
    }
    end_line();
}

void print_entry(uint64_t told, const int32_t day_and_words[13], const struct spineyarrow_entry *entry)
{
    if (put_ok(told)) {
        put_spaced(day_and_words[0]);
        put(' ');
        put_hex(entry->etop, 2);
        put_hex(entry->even, 16);
        put(' ');
        put_hex(entry->otop, 2);
        put_hex(entry->odd, 16);
    }
    end_line();
}

void print_words(uint64_t told, const int32_t day_and_words[13])
{
    if (put_ok(told)) put_words(day_and_words + 1, 12);
    end_line();
}

/* beside its 0 the number has the satellite, which the text begins with */
void print_navigation(uint64_t told, const uint8_t text[NAVIGATION_BYTES])
{
    if (told & 255) {
        put_no(told);
    } else {
        put_text("ok ");
        for (int i = 0; i < NAVIGATION_BYTES - 1; i++) put(text[i] == '\n' ? '|' : (char)text[i]);
    }
    end_line();
}
