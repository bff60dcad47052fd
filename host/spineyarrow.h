/* Spineyarrow for a host in C. Made by `tools/draw header` from the sources of the crates: nothing else checks a C declaration against
   them, so do not edit it by hand.

   Calls take any bytes and any length, and refuse what they cannot take. An answer is numbers in one, each in a byte, the first in the lowest:
   0 where the call is taken, or the number that says no. A refusal leaves every output as it was.

   What the caller owes to every call: a pointer points to as many elements as are said with it, or to one; a room is the number of elements of
   its output; a station is SPINEYARROW_STATION_BYTES bytes, aligned; of what is handed over nothing overlaps what is written; and one call is made
   at a time on one station. */
#ifndef SPINEYARROW_H
#define SPINEYARROW_H

#include <stddef.h>
#include <stdint.h>

#ifdef __cplusplus
extern "C" {
#endif

/* a plain string: bit 85 is the top bit of the first byte; the last three bits of the eleventh are padding, and 0 */
enum { SPINEYARROW_STRING_BYTES = 11 };

/* the signed words by number, as spineyarrow_word takes them: the unit of each, and its dimension */
enum spineyarrow_word_number {
    SPINEYARROW_X_VELOCITY = 1, /* 2^-20 km/s; string 1 */
    SPINEYARROW_X_ACCELERATION = 2, /* 2^-30 km/s^2; string 1 */
    SPINEYARROW_X = 3, /* 2^-11 km; string 1 */
    SPINEYARROW_Y_VELOCITY = 4, /* 2^-20 km/s; string 2 */
    SPINEYARROW_Y_ACCELERATION = 5, /* 2^-30 km/s^2; string 2 */
    SPINEYARROW_Y = 6, /* 2^-11 km; string 2 */
    SPINEYARROW_GAMMA = 7, /* 2^-40 dimensionless; string 3 */
    SPINEYARROW_Z_VELOCITY = 8, /* 2^-20 km/s; string 3 */
    SPINEYARROW_Z_ACCELERATION = 9, /* 2^-30 km/s^2; string 3 */
    SPINEYARROW_Z = 10, /* 2^-11 km; string 3 */
    SPINEYARROW_TAU = 11, /* 2^-30 s; string 4 */
    SPINEYARROW_DELTA_TAU = 12, /* 2^-30 s; string 4 */
    SPINEYARROW_TAU_C = 13, /* 2^-31 s; string 5 */
    SPINEYARROW_TAU_GPS = 14, /* 2^-30 s; string 5 */
    SPINEYARROW_TAU_A = 15, /* 2^-18 s; even strings 6 to 14 */
    SPINEYARROW_LAMBDA = 16, /* 2^-20 half cycles; even strings 6 to 14 */
    SPINEYARROW_DELTA_I = 17, /* 2^-20 half cycles; even strings 6 to 14 */
    SPINEYARROW_OMEGA = 18, /* 2^-15 half cycles; odd strings 7 to 15 */
    SPINEYARROW_DELTA_T = 19, /* 2^-9 s/orbit; odd strings 7 to 15 */
    SPINEYARROW_DELTA_T_RATE = 20, /* 2^-14 s/orbit^2; odd strings 7 to 15 */
    SPINEYARROW_B1 = 21, /* 2^-10 s; string 14 of frame 5 */
    SPINEYARROW_B2 = 22, /* 2^-16 s/day; string 14 of frame 5 */
    SPINEYARROW_WORDS = 22
};

/* the numbers that say no, in the lowest byte of an answer */
enum spineyarrow_no {
    SPINEYARROW_TAKEN = 0,
    SPINEYARROW_NO_CHANNEL = 1,
    SPINEYARROW_NO_SHAPE = 2,
    SPINEYARROW_NO_IDLE = 4,
    SPINEYARROW_NO_NUMBER = 5,
    SPINEYARROW_NO_EARLY = 6,
    SPINEYARROW_NO_STALE = 7,
    SPINEYARROW_NO_OFF_BEAT = 8,
    SPINEYARROW_NO_CONFLICT = 9,
    SPINEYARROW_NO_RANGE = 10,
    SPINEYARROW_NO_PLACE = 11,
    SPINEYARROW_NO_ROOM = 12,
    SPINEYARROW_NO_NOTHING = 13,
    SPINEYARROW_NO_SLOT = 14,
    SPINEYARROW_NO_OWNER = 15,
    SPINEYARROW_NO_CARD = 16,
    SPINEYARROW_NO_LINES = 17,
    SPINEYARROW_NO_DAMAGED_UNPLACED = 31,
    SPINEYARROW_NO_DAMAGED_EVEN = 32,
    SPINEYARROW_NO_DAMAGED_OUTSIDE = 33,
    SPINEYARROW_NO_TAG = 41,
    SPINEYARROW_NO_LENGTH = 42,
    SPINEYARROW_NO_CUT = 43
};

/* A lent station, as it lies in the host's memory, to be read in place between two calls by a panel or a debugger, and written by the calls alone.
   Numbers stand in the machine's own order of bytes. All zero is a fresh station. */

/* The strings 1 to 4 that the latest immediate record was read from, and the start of their frame.
   Where their words are not in range, as in a reset row's zeros, there is no record. */
struct spineyarrow_immediate {
    uint8_t strings[44];
    uint32_t start;
};
typedef char spineyarrow_immediate_strings_lies[offsetof(struct spineyarrow_immediate, strings) == 0 ? 1 : -1];
typedef char spineyarrow_immediate_start_lies[offsetof(struct spineyarrow_immediate, start) == 44 ? 1 : -1];
typedef char spineyarrow_immediate_size[sizeof(struct spineyarrow_immediate) == 48 ? 1 : -1];

/* One tally for each refusal that an offer on a valid channel can get, in the order of the tests: 2; 31,
   32 and 33, which are DAMAGED; 4 to 9. */
struct spineyarrow_causes {
    uint32_t shape;
    uint32_t unplaced;
    uint32_t even;
    uint32_t outside;
    uint32_t idle;
    uint32_t number;
    uint32_t early;
    uint32_t stale;
    uint32_t offbeat;
    uint32_t conflict;
};
typedef char spineyarrow_causes_shape_lies[offsetof(struct spineyarrow_causes, shape) == 0 ? 1 : -1];
typedef char spineyarrow_causes_unplaced_lies[offsetof(struct spineyarrow_causes, unplaced) == 4 ? 1 : -1];
typedef char spineyarrow_causes_even_lies[offsetof(struct spineyarrow_causes, even) == 8 ? 1 : -1];
typedef char spineyarrow_causes_outside_lies[offsetof(struct spineyarrow_causes, outside) == 12 ? 1 : -1];
typedef char spineyarrow_causes_idle_lies[offsetof(struct spineyarrow_causes, idle) == 16 ? 1 : -1];
typedef char spineyarrow_causes_number_lies[offsetof(struct spineyarrow_causes, number) == 20 ? 1 : -1];
typedef char spineyarrow_causes_early_lies[offsetof(struct spineyarrow_causes, early) == 24 ? 1 : -1];
typedef char spineyarrow_causes_stale_lies[offsetof(struct spineyarrow_causes, stale) == 28 ? 1 : -1];
typedef char spineyarrow_causes_offbeat_lies[offsetof(struct spineyarrow_causes, offbeat) == 32 ? 1 : -1];
typedef char spineyarrow_causes_conflict_lies[offsetof(struct spineyarrow_causes, conflict) == 36 ? 1 : -1];
typedef char spineyarrow_causes_size[sizeof(struct spineyarrow_causes) == 40 ? 1 : -1];

/* The counts since the channel's reset: strings offered, taken clean, taken repaired, refused; and the
   refused ones by cause. A reset leaves all fourteen at 0. They are the last of a row, each a word of four
   bytes, where a host in C reads them. */
struct spineyarrow_tallies {
    uint32_t offered;
    uint32_t clean;
    uint32_t repaired;
    uint32_t refused;
    struct spineyarrow_causes causes;
};
typedef char spineyarrow_tallies_offered_lies[offsetof(struct spineyarrow_tallies, offered) == 0 ? 1 : -1];
typedef char spineyarrow_tallies_clean_lies[offsetof(struct spineyarrow_tallies, clean) == 4 ? 1 : -1];
typedef char spineyarrow_tallies_repaired_lies[offsetof(struct spineyarrow_tallies, repaired) == 8 ? 1 : -1];
typedef char spineyarrow_tallies_refused_lies[offsetof(struct spineyarrow_tallies, refused) == 12 ? 1 : -1];
typedef char spineyarrow_tallies_causes_lies[offsetof(struct spineyarrow_tallies, causes) == 16 ? 1 : -1];
typedef char spineyarrow_tallies_size[sizeof(struct spineyarrow_tallies) == 56 ? 1 : -1];

/* The latest immediate record; fifteen strings of one frame, eleven bytes each; the frame's start; a
   mask of the strings that are present, string m at bit m-1; and the tallies. All zero is a reset
   row. The record comes first so that both it and the strings begin at a whole word, which the card
   copies four times as fast. */
struct spineyarrow_row {
    struct spineyarrow_immediate immediate;
    uint8_t strings[165];
    uint32_t start;
    uint16_t present;
    struct spineyarrow_tallies tallies;
};
typedef char spineyarrow_row_immediate_lies[offsetof(struct spineyarrow_row, immediate) == 0 ? 1 : -1];
typedef char spineyarrow_row_strings_lies[offsetof(struct spineyarrow_row, strings) == 48 ? 1 : -1];
typedef char spineyarrow_row_start_lies[offsetof(struct spineyarrow_row, start) == 216 ? 1 : -1];
typedef char spineyarrow_row_present_lies[offsetof(struct spineyarrow_row, present) == 220 ? 1 : -1];
typedef char spineyarrow_row_tallies_lies[offsetof(struct spineyarrow_row, tallies) == 224 ? 1 : -1];
typedef char spineyarrow_row_size[sizeof(struct spineyarrow_row) == 280 ? 1 : -1];

/* An entry: its day, the even string's bits 80..9 (etop the eight highest, even the rest) and the
   odd string's bits 80..10 (otop the seven highest, odd the rest). Day 0 is no entry, for C too. */
struct spineyarrow_entry {
    uint64_t even;
    uint64_t odd;
    uint16_t day;
    uint8_t etop;
    uint8_t otop;
};
typedef char spineyarrow_entry_even_lies[offsetof(struct spineyarrow_entry, even) == 0 ? 1 : -1];
typedef char spineyarrow_entry_odd_lies[offsetof(struct spineyarrow_entry, odd) == 8 ? 1 : -1];
typedef char spineyarrow_entry_day_lies[offsetof(struct spineyarrow_entry, day) == 16 ? 1 : -1];
typedef char spineyarrow_entry_etop_lies[offsetof(struct spineyarrow_entry, etop) == 18 ? 1 : -1];
typedef char spineyarrow_entry_otop_lies[offsetof(struct spineyarrow_entry, otop) == 19 ? 1 : -1];
typedef char spineyarrow_entry_size[sizeof(struct spineyarrow_entry) == 24 ? 1 : -1];

/* The almanac book: an entry for each of the 24 slots, slot 1 first. */
struct spineyarrow_book {
    struct spineyarrow_entry entries[24];
};
typedef char spineyarrow_book_entries_lies[offsetof(struct spineyarrow_book, entries) == 0 ? 1 : -1];
typedef char spineyarrow_book_size[sizeof(struct spineyarrow_book) == 576 ? 1 : -1];

/* How many lines hold an entry, the oldest of their days and the newest: 0, 0, 0 where none does, for
   C too. */
struct spineyarrow_summary {
    uint64_t count;
    uint16_t oldest;
    uint16_t newest;
};
typedef char spineyarrow_summary_count_lies[offsetof(struct spineyarrow_summary, count) == 0 ? 1 : -1];
typedef char spineyarrow_summary_oldest_lies[offsetof(struct spineyarrow_summary, oldest) == 8 ? 1 : -1];
typedef char spineyarrow_summary_newest_lies[offsetof(struct spineyarrow_summary, newest) == 10 ? 1 : -1];
typedef char spineyarrow_summary_size[sizeof(struct spineyarrow_summary) == 16 ? 1 : -1];

/* All that the cards know: a row for each channel, the almanac book that they share, and the book's
   summary. */
struct spineyarrow_station {
    struct spineyarrow_row rows[48];
    struct spineyarrow_book book;
    struct spineyarrow_summary summary;
};
typedef char spineyarrow_station_rows_lies[offsetof(struct spineyarrow_station, rows) == 0 ? 1 : -1];
typedef char spineyarrow_station_book_lies[offsetof(struct spineyarrow_station, book) == 13440 ? 1 : -1];
typedef char spineyarrow_station_summary_lies[offsetof(struct spineyarrow_station, summary) == 14016 ? 1 : -1];
typedef char spineyarrow_station_size[sizeof(struct spineyarrow_station) == 14032 ? 1 : -1];

enum { SPINEYARROW_STATION_BYTES = 14032, SPINEYARROW_STATION_ALIGNMENT = 8 };

/* ==== libhost.a (tools/staticlib host): strings checked, signed words as floats, the immediate record of four strings */

/* Checks a plain string, and writes it into eleven bytes as the check leaves it. Answers 0 with the
   verdict, in the next byte 0 clean or 1 repaired, and above that the bit that was repaired; or 12 ROOM,
   2 SHAPE, 31 to 33 DAMAGED, 4 IDLE. */
uint32_t spineyarrow_check(const uint8_t *s, uint64_t s_length, uint8_t *out, uint64_t out_room);

/* Delivers one signed word of a plain string, by its number 1 to 22, as a float: the raw number times
   its unit, exactly. The string is read as the check leaves it. Answers 0; or 2 SHAPE, 31 to 33 DAMAGED,
   4 IDLE, 5 NUMBER, 11 PLACE where the string does not have the word, 10 RANGE where a word of the
   string is out of range, with that one's top bit number in the next byte. */
uint32_t spineyarrow_word(const uint8_t *s, uint64_t s_length, uint8_t word, double *value);

/* Reads the immediate record from strings 1 to 4 in plain form: its 26 raw words in the order of the
   strings, and the 12 signed ones as floats, words 1 to 12. Answers 0; or 2 SHAPE where one has not
   eleven bytes, and then as for a word, string by string. Which one is refused is not told, and that
   the four share a frame is not tested. */
uint32_t spineyarrow_immediate(const uint8_t *one, uint64_t one_length, const uint8_t *two, uint64_t two_length, const uint8_t *three, uint64_t three_length, const uint8_t *four, uint64_t four_length, int32_t words[26], double numbers[12]);

/* ==== liblent.a (tools/staticlib lent): a station of two cards that lies in the host's memory, 14,032 bytes aligned to 8; all zero is a fresh one */

/* Offers a string, in relative form and of any length, to a channel at an epoch. Card 1 has channels 0
   to 23, card 2 24 to 47. A card that is neither is told 16 CARD, a channel above 47 1 CHANNEL, and the
   other card's 15 OWNER, before anything of the station is read; then 2 SHAPE, 31 to 33 DAMAGED, 4 IDLE,
   5 NUMBER, 6 EARLY, 7 STALE, 8 OFF BEAT, 9 CONFLICT. Taken: 0 and, in the next bytes, m; 0 clean or 1
   repaired; the bit that was repaired; 0 already held, 1 kept, 2 record built or 3 record out of range;
   and 1 where the symbols came inverted. */
uint64_t spineyarrow_offer(void *station, uint8_t card, uint8_t channel, uint32_t epoch, const uint8_t *s, uint64_t s_length);

/* Empties a channel's row, its record and its tallies; the book stays. Card and channel are tested as
   those of an offer, and told in the same way, before anything of the station is touched. */
uint64_t spineyarrow_reset(void *station, uint8_t card, uint8_t channel);

/* ==== liblent_queries.a (tools/staticlib lent_queries): what such a station tells; a room counts the numbers of an output, not its bytes */

/* How many slots of the book are filled, the oldest day and the newest, into three elements. Answers 0;
   or 16 CARD, 12 ROOM. */
uint64_t spineyarrow_summary(const void *station, uint8_t card, uint64_t *out, uint64_t out_room);

/* The health of the satellite that a channel's record is of: in the next byte 0 unknown, 1 usable, 2 not
   usable. Or 16 CARD, 1 CHANNEL, 15 OWNER. */
uint64_t spineyarrow_health(const void *station, uint8_t card, uint8_t channel);

/* A channel's tallies, into fourteen elements: strings offered, clean, repaired, refused, and the refused
   ones by cause. Answers 0; or 16 CARD, 1 CHANNEL, 15 OWNER, 12 ROOM. */
uint64_t spineyarrow_tallies(const void *station, uint8_t card, uint8_t channel, uint32_t *out, uint64_t out_room);

/* The entry of a slot, which are numbered from 1, into thirteen elements: its day, and its twelve words.
   Answers 0; or 16 CARD, 14 SLOT, 12 ROOM, 13 NOTHING. */
uint64_t spineyarrow_entry(const void *station, uint8_t card, uint8_t slot, int32_t *out, uint64_t out_room);

/* A channel's immediate record: its 26 words into as many elements, and the start of its frame. Answers
   0; or 16 CARD, 1 CHANNEL, 15 OWNER, 12 ROOM, 13 NOTHING. */
uint64_t spineyarrow_record(const void *station, uint8_t card, uint8_t channel, int32_t *words, uint64_t words_room, uint32_t *start);

/* ==== liblent_blocks.a (tools/staticlib lent_blocks): a block of fields handed to such a station, field by field */

/* Does the field at a place, for the card that hands the block over, and tells it in one number: in its
   lowest byte 0 at the end of the block, 1 an offer, 2 a reset, 3 a remark, or what says no to the
   field; above that the numbers of the call's own answer. */
uint64_t spineyarrow_field(void *station, uint8_t card, const uint8_t *block, uint64_t block_length, uint64_t at);

/* The place after the field: its own where it is refused, and at the end. */
uint64_t spineyarrow_next(const uint8_t *block, uint64_t block_length, uint64_t at);

/* ==== liblent_sites.a (tools/staticlib lent_sites): such a station emptied, another site's book joined into its own, its own book for another site */

/* Leaves the station as one that has heard nothing, whatever it was. */
void spineyarrow_fresh(void *station);

/* Joins the book that 480 bytes are. Any other length is told 2 SHAPE, and then nothing changes. */
uint64_t spineyarrow_join(void *station, const uint8_t *book, uint64_t book_length);

/* Writes the book's 480 bytes. A room that is not of that many bytes is told 12 ROOM, and stays as it was. */
uint64_t spineyarrow_book(const void *station, uint8_t *out, uint64_t out_room);

/* ==== liblent_navigation.a (tools/staticlib lent_navigation): the navigation record of a satellite that such a station hears */

/* The RINEX navigation record of a channel's satellite, into 320 bytes: four lines of 79 columns and a line
   feed. In the next byte n, the satellite; the text has the epoch. Or 16 CARD, 1 CHANNEL, 15 OWNER, 13
   NOTHING where the record, string 5 of its frame or the satellite's entry is missing, 10 RANGE with the
   place of NT or N4 in the next byte, 17 LINES. */
uint64_t spineyarrow_navigation(const void *station, uint8_t card, uint8_t channel, uint8_t *out, uint64_t out_room);

#ifdef __cplusplus
}
#endif

#endif
