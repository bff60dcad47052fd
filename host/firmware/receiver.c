/* The receiver's program, for two cards of 24 channels over one station: an example to copy from.

   Each second both cards hand over a block of what they heard, and the panel shows how full the almanac is. At the end it tells all that the
   station knows of each channel and of each slot. What it prints are the lines of ./trial for the same calls.

   C99 with spineyarrow.h and libspineyarrow.a alone: no C library, no operating system, no dynamic memory. */
#include "receiver.h"
#include "blocks.h"
#include "lines.h"
#include "spineyarrow.h"

enum { CARDS = 2, CHANNELS = 24, SLOTS = 24 };

/* what a field was, in the lowest byte of its answer: one of these with the call's own answer above it, 3 a remark, 0 the end of the block, or the
   number that refuses the field */
enum { OFFER = 1, RESET = 2 };

/* All that the library knows is in here. It has no memory of its own. */
static struct spineyarrow_station station;

/* A card hands over a block: fields end to end, offers of strings, resets of channels and remarks. */
static void hand_over(uint8_t card, const uint8_t *block, uint64_t length)
{
    uint64_t at, next = 0, told;
    do {
        at = next;
        told = spineyarrow_field(&station, card, block, length, at);
        if ((told & 255) == OFFER) print_offer(told >> 8);
        if ((told & 255) == RESET) print_reset(told >> 8);
        next = spineyarrow_next(block, length, at);
    } while (next != at); /* the place stays at the end, and at a field that is refused */
    print_end(told, at);
}

/* How many slots of the almanac are filled, the oldest day and the newest. */
static void show_panel(void)
{
    uint64_t panel[3];
    uint64_t told = spineyarrow_summary(&station, 1, panel, 3);
    print_summary(told, panel);
}

/* One second: the block of card one, the block of card two, the panel. 0 where the line has ended. */
static int hear_second(void)
{
    for (uint8_t card = 1; card <= CARDS; card++) {
        uint64_t length;
        const uint8_t *block = next_block(&length);
        if (!block) return 0;
        hand_over(card, block, length);
    }
    show_panel();
    return 1;
}

/* The navigation record of a channel's satellite, as the survey office reads it. */
static void tell_navigation(uint8_t card, uint8_t channel)
{
    uint8_t text[NAVIGATION_BYTES];
    uint64_t told = spineyarrow_navigation(&station, card, channel, text, NAVIGATION_BYTES);
    print_navigation(told, text);
}

/* May its satellite be used, what does it say of itself, and how well was it heard? */
static void tell_channel(uint8_t card, uint8_t channel)
{
    int32_t words[26];
    uint32_t start = 0, tallies[14];
    uint64_t told = spineyarrow_health(&station, card, channel);
    print_health(told);
    told = spineyarrow_record(&station, card, channel, words, 26, &start);
    print_record(told, words, start);
    told = spineyarrow_tallies(&station, card, channel, tallies, 14);
    print_tallies(told, tallies);
    tell_navigation(card, channel);
}

/* The almanac of a slot: its day with the bits of its two strings, which are read where they lie, and its words. */
static void tell_slot(uint8_t slot)
{
    int32_t day_and_words[13];
    uint64_t told = spineyarrow_entry(&station, 1, slot, day_and_words, 13);
    print_entry(told, day_and_words, &station.book.entries[slot - 1]);
    print_words(told, day_and_words);
}

void receive(void)
{
    spineyarrow_fresh(&station);
    while (hear_second()) continue;
    for (uint8_t channel = 0; channel < CARDS * CHANNELS; channel++) tell_channel(channel < CHANNELS ? 1 : 2, channel);
    for (uint8_t slot = 1; slot <= SLOTS; slot++) tell_slot(slot);
}
