/* calls: reads requests from standard input (second/README.md, Requests) and answers those that C has by the lent calls, in the lines of ./trial.
   `calls keep` copies these requests to standard output, and leaves the others out.

   Beside the lines it holds what the header says of every query: with a room that is not the output's it is refused, by 12 ROOM after card, channel,
   owner and slot and before 13 NOTHING, and a navigation record by 17 LINES after all others; a refusal leaves every output as it was, what is taken
   writes no byte beyond; and the station stays as it is, to the byte. It holds the same of a call that a wrong card or channel refuses, and of a book
   of another length. Where one of these is not so it says which and ends with 1; else it says on standard error how many requests there were.

   C99, with spineyarrow.h and libspineyarrow.a. */
#include "firmware/lines.h"
#include "spineyarrow.h"
#include <stdio.h>
#include <stdlib.h>
#include <string.h>

enum { BOOK_BYTES = 480, LONGEST = 65535, MOST_ROOM = 1100, WIDEST = 8 };

/* Two sites have a station each: the one in use, and the one set aside. */
static struct spineyarrow_station sites[2], before[2];
static int used;
static unsigned long request, wrong_rooms;

static struct spineyarrow_station *in_use(void) { return &sites[used]; }
static const struct spineyarrow_station *set_aside(void) { return &sites[!used]; }

void write_line(const char *line) { fputs(line, stdout); }

static void hold(int so, const char *what)
{
    if (so) return;
    fflush(stdout);
    fprintf(stderr, "calls: request %lu: not so: %s\n", request, what);
    exit(1);
}

/* both stations, every byte of them, before a call that may not change them */
static void remember(void) { memcpy(before, sites, sizeof sites); }
static int is_as_before(void) { return !memcmp(before, sites, sizeof sites); }

/* ==== the numbers that a card, a channel and a slot are refused with */

static uint64_t card_no(uint8_t card) { return card == 1 || card == 2 ? 0 : SPINEYARROW_NO_CARD; }

static uint64_t channel_no(uint8_t card, uint8_t channel)
{
    if (card_no(card)) return SPINEYARROW_NO_CARD;
    if (channel > 47) return SPINEYARROW_NO_CHANNEL;
    return (channel < 24 ? 1 : 2) == card ? 0 : SPINEYARROW_NO_OWNER;
}

static uint64_t slot_no(uint8_t card, uint8_t slot)
{
    if (card_no(card)) return SPINEYARROW_NO_CARD;
    return slot >= 1 && slot <= 24 ? 0 : SPINEYARROW_NO_SLOT;
}

/* ==== the queries, in one form: of a card and a channel or slot, into an output of so many elements; the record's start comes apart */

static uint32_t start;

static uint64_t ask_summary(uint8_t card, uint8_t none, void *out, uint64_t room)
{
    (void)none;
    return spineyarrow_summary(in_use(), card, out, room);
}
static uint64_t ask_tallies(uint8_t card, uint8_t channel, void *out, uint64_t room)
{
    return spineyarrow_tallies(in_use(), card, channel, out, room);
}
static uint64_t ask_record(uint8_t card, uint8_t channel, void *out, uint64_t room)
{
    return spineyarrow_record(in_use(), card, channel, out, room, &start);
}
static uint64_t ask_entry(uint8_t card, uint8_t slot, void *out, uint64_t room)
{
    return spineyarrow_entry(in_use(), card, slot, out, room);
}
static uint64_t ask_book(uint8_t card, uint8_t none, void *out, uint64_t room)
{
    (void)card, (void)none;
    return spineyarrow_book(set_aside(), out, room);
}
static uint64_t ask_navigation(uint8_t card, uint8_t channel, void *out, uint64_t room)
{
    return spineyarrow_navigation(in_use(), card, channel, out, room);
}

struct query {
    uint64_t (*ask)(uint8_t card, uint8_t which, void *out, uint64_t room);
    size_t width, elements; /* of its output: bytes of an element, and how many there are */
    uint64_t room_no;       /* the number for another room */
    int room_last;          /* it comes after all others */
};

static const struct query SUMMARY = { ask_summary, 8, 3, SPINEYARROW_NO_ROOM, 0 };
static const struct query TALLIES = { ask_tallies, 4, 14, SPINEYARROW_NO_ROOM, 0 };
static const struct query RECORD = { ask_record, 4, 26, SPINEYARROW_NO_ROOM, 0 };
static const struct query ENTRY = { ask_entry, 4, 13, SPINEYARROW_NO_ROOM, 0 };
static const struct query BOOK = { ask_book, 1, BOOK_BYTES, SPINEYARROW_NO_ROOM, 0 };
static const struct query NAVIGATE = { ask_navigation, 1, NAVIGATION_BYTES, SPINEYARROW_NO_LINES, 1 };

/* ==== a query asked, and what is held of it */

/* an output as wide as the widest element wants it, among bytes that no call may touch */
static union {
    uint64_t numbers[MOST_ROOM + 2];
    uint8_t bytes[WIDEST * (MOST_ROOM + 2)];
} output;

static int is_all(const uint8_t *bytes, size_t count, uint8_t with)
{
    while (count && bytes[count - 1] == with) count--;
    return count == 0;
}

/* asks with this room over bytes that are all `with`: a refusal writes nothing, and what is taken nothing beyond its elements */
static uint64_t ask_over(const struct query *q, uint8_t card, uint8_t which, uint64_t room, uint8_t with)
{
    size_t around = WIDEST, reach = q->width * (size_t)(room > q->elements ? room : q->elements) + WIDEST;
    memset(output.bytes, with, around + reach);
    memset(&start, with, sizeof start);
    uint64_t told = q->ask(card, which, output.bytes + around, room);
    size_t written = told & 255 ? 0 : q->width * q->elements;
    hold(is_all(output.bytes, around, with), "the bytes before an output are as they were");
    hold(is_all(output.bytes + around + written, reach - written, with), "what is beyond an output, and all of it where it is refused, is as it was");
    if (told & 255) hold(is_all((const uint8_t *)&start, sizeof start, with), "the start is as it was where the record is refused");
    return told;
}

/* asks over two sorts of bytes, so that none is written that was so before */
static uint64_t ask_room(const struct query *q, uint8_t card, uint8_t which, uint64_t room)
{
    uint64_t told = ask_over(q, card, which, room, 0x5A);
    hold(ask_over(q, card, which, room, 0xA5) == told, "a query asked again answers the same");
    return told;
}

/* the number for a room that is not the output's */
static uint64_t wrong_room_no(const struct query *q, uint64_t gate, uint64_t told)
{
    if (gate) return gate;
    return q->room_last && told & 255 ? told : q->room_no;
}

/* asks a query with the rooms that are wrong, and then with the right one; `gate` is what its card, channel or slot is refused with, or 0 */
static uint64_t ask(const struct query *q, uint8_t card, uint8_t which, uint64_t gate)
{
    const uint64_t n = q->elements, rooms[] = { 0, 1, n / 2, n - 1, n + 1, 2 * n, n * q->width, 11, 256, 320, 1024 };
    remember();
    uint64_t told = ask_room(q, card, which, n);
    for (size_t i = 0; i < sizeof rooms / sizeof rooms[0]; i++) {
        if (rooms[i] == n) continue;
        hold(ask_room(q, card, which, rooms[i]) == wrong_room_no(q, gate, told), "a wrong room has its number in its place");
        wrong_rooms++;
    }
    hold(gate ? told == gate : (told & 255) != q->room_no, "card, channel, owner and slot come first, and the right room is taken");
    hold(ask_over(q, card, which, n, 0x5A) == told, "a query asked again answers the same");
    hold(is_as_before(), "a query leaves the station as it was");
    return told;
}

static const void *answer(void) { return output.bytes + WIDEST; }

/* ==== the calls */

static void hold_gate(uint64_t gate, uint64_t told)
{
    int shut = told == SPINEYARROW_NO_CARD || told == SPINEYARROW_NO_CHANNEL || told == SPINEYARROW_NO_OWNER;
    hold(gate ? told == gate : !shut, "card, channel and owner come first, and only where they are wrong");
    if (gate) hold(is_as_before(), "a refused card or channel changes nothing");
}

/* of an offer that is taken: the case is 1 exactly where a bit is told */
static void hold_offer(uint64_t told)
{
    if (told & 255) return;
    hold((told >> 16 & 255) == ((told >> 24 & 255) != 0), "a string is repaired exactly where a bit is told");
}

static void offer(uint8_t card, const uint8_t *p, size_t length)
{
    uint32_t epoch = (uint32_t)p[1] << 24 | (uint32_t)p[2] << 16 | (uint32_t)p[3] << 8 | p[4];
    remember();
    uint64_t told = spineyarrow_offer(in_use(), card, p[0], epoch, p + 5, length - 5);
    hold_gate(channel_no(card, p[0]), told);
    hold_offer(told);
    print_offer(told);
}

static void reset(uint8_t card, uint8_t channel)
{
    remember();
    uint64_t told = spineyarrow_reset(in_use(), card, channel);
    hold_gate(channel_no(card, channel), told);
    print_reset(told);
}

static void hand_over(uint8_t card, const uint8_t *block, size_t length)
{
    uint64_t at, next = 0, told;
    do {
        at = next;
        told = spineyarrow_field(in_use(), card, block, length, at);
        if ((told & 255) == 1) hold_offer(told >> 8), print_offer(told >> 8);
        if ((told & 255) == 2) print_reset(told >> 8);
        next = spineyarrow_next(block, length, at);
    } while (next != at);
    print_end(told, at);
}

static void summary(uint8_t card)
{
    uint64_t told = ask(&SUMMARY, card, 0, card_no(card));
    print_summary(told, answer());
}

static void health(uint8_t card, uint8_t channel)
{
    remember();
    uint64_t told = spineyarrow_health(in_use(), card, channel);
    hold_gate(channel_no(card, channel), told);
    hold(is_as_before(), "a query leaves the station as it was");
    print_health(told);
}

static void tallies(uint8_t card, uint8_t channel)
{
    uint64_t told = ask(&TALLIES, card, channel, channel_no(card, channel));
    print_tallies(told, answer());
}

static void record(uint8_t card, uint8_t channel)
{
    uint64_t told = ask(&RECORD, card, channel, channel_no(card, channel));
    print_record(told, answer(), start);
}

/* the entry's bits are read where they lie; the day is told, and lies there too */
static void entry(uint8_t card, uint8_t slot)
{
    uint64_t told = ask(&ENTRY, card, slot, slot_no(card, slot));
    const int32_t *day_and_words = answer();
    const struct spineyarrow_entry *lies = told ? NULL : &in_use()->book.entries[slot - 1];
    if (lies) hold(day_and_words[0] == lies->day, "the day that is told lies in the book");
    print_entry(told, day_and_words, lies);
}

static void entry_words(uint8_t card, uint8_t slot)
{
    uint64_t told = ask(&ENTRY, card, slot, slot_no(card, slot));
    print_words(told, answer());
}

/* the text begins with the satellite in two columns */
static void hold_satellite(uint64_t told, const uint8_t *text)
{
    uint64_t n = (text[0] == ' ' ? 0u : text[0] - 48u) * 10u + (text[1] - 48u);
    hold(told >> 8 == n, "the satellite that is told is the text's");
}

static void navigation(uint8_t card, uint8_t channel, uint64_t room)
{
    uint64_t told = ask(&NAVIGATE, card, channel, channel_no(card, channel));
    if (!(told & 255)) hold_satellite(told, answer());
    told = ask_room(&NAVIGATE, card, channel, room);
    print_navigation(told, answer());
}

static void fresh(void)
{
    memset(in_use(), 0xA5, sizeof sites[0]);
    spineyarrow_fresh(in_use());
}

static void hold_other_lengths(const uint8_t *book)
{
    const uint64_t lengths[] = { 0, 1, 20, BOOK_BYTES - 1, BOOK_BYTES + 1, 576 };
    for (size_t i = 0; i < sizeof lengths / sizeof lengths[0]; i++) {
        remember();
        hold(spineyarrow_join(in_use(), book, lengths[i]) == SPINEYARROW_NO_SHAPE, "a book of another length is told SHAPE");
        hold(is_as_before(), "and changes nothing");
    }
}

/* the book of the one set aside, sent as bytes, joined into that of the one in use */
static void join(void)
{
    static uint8_t book[576];
    hold(ask(&BOOK, 0, 0, 0) == 0, "a book is sent");
    memcpy(book, answer(), BOOK_BYTES);
    hold_other_lengths(book);
    hold(spineyarrow_join(in_use(), book, BOOK_BYTES) == 0, "a book of 480 bytes is joined");
    hold(!memcmp(before[used].rows, in_use()->rows, sizeof in_use()->rows), "a join leaves the rows as they were");
    hold(!memcmp(&before[!used], set_aside(), sizeof *set_aside()), "and the other station too");
    summary(1);
}

/* ==== requests */

/* Does a call of a card; 0 where there is none of this op, or its payload has no such length. */
static int card_call(int op, uint8_t card, const uint8_t *p, size_t length)
{
    if (op == 6 && length >= 5) return offer(card, p, length), 1;
    if (op == 13) return hand_over(card, p, length), 1;
    if (op == 14 && length == 0) return summary(card), 1;
    if (length != 1) return 0;
    switch (op) {
    case 7: return reset(card, p[0]), 1;
    case 8: return record(card, p[0]), 1;
    case 9: return entry(card, p[0]), 1;
    case 10: return tallies(card, p[0]), 1;
    case 11: return health(card, p[0]), 1;
    case 23: return entry_words(card, p[0]), 1;
    default: return 0;
    }
}

static int is_of_a_card(int op) { return (op >= 6 && op <= 11) || op == 13 || op == 14 || op == 23; }

static int call(int op, const uint8_t *p, size_t length)
{
    if (is_of_a_card(op)) return card_call(op, 1, p, length);
    if (is_of_a_card(op - 32)) return length && card_call(op - 32, p[0], p + 1, length - 1);
    if (op == 18 && length == 4 && p[2] * 256 + p[3] <= 1024) return navigation(p[0], p[1], (uint64_t)p[2] << 8 | p[3]), 1;
    if (length) return 0;
    switch (op) {
    case 12: return fresh(), print_reset(0), 1;
    case 21: return used = !used, print_reset(0), 1;
    case 22: return join(), 1;
    default: return 0;
    }
}

/* the requests that C does not have: strings and words alone, salvage, skies, chips, string 5, a carrier */
static int is_left_out(int op)
{
    return (op >= 1 && op <= 5) || (op >= 15 && op <= 17) || op == 19 || op == 20 || op == 24 || op == 25;
}

/* Reads the next request into `bytes`, as it stands; how many bytes came, and in `whole` how many it has. */
static size_t next_request(uint8_t bytes[3 + LONGEST], size_t *whole)
{
    size_t came = fread(bytes, 1, 3, stdin);
    *whole = 3;
    if (came < 3) return came;
    *whole += (size_t)bytes[1] << 8 | bytes[2];
    return came + fread(bytes + 3, 1, *whole - 3, stdin);
}

static void answer_request(const uint8_t *bytes, size_t whole)
{
    hold(!is_left_out(bytes[0]), "C has the request");
    if (!call(bytes[0], bytes + 3, whole - 3)) printf("bad %d\n", bytes[0]);
}

int main(int argc, char **argv)
{
    static uint8_t bytes[3 + LONGEST];
    int keep = argc == 2 && !strcmp(argv[1], "keep");
    size_t came, whole;
    if (argc > 1 && !keep) return fputs("usage: calls [keep] < REQUESTS\n", stderr), 2;
    fresh(), used = 1, fresh(), used = 0;
    while ((came = next_request(bytes, &whole)) == whole) {
        request++;
        if (!keep) answer_request(bytes, whole);
        else if (!is_left_out(bytes[0])) fwrite(bytes, 1, whole, stdout);
    }
    if (came && keep) fwrite(bytes, 1, came, stdout);
    if (came && !keep) printf("short %lu\n", (unsigned long)came);
    if (!keep) fprintf(stderr, "%lu requests, %lu queries more with a wrong room\n", request, wrong_rooms);
    return ferror(stdin) || fflush(stdout) || ferror(stdout);
}
