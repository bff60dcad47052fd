/* The calls of host/spineyarrow.h on a lent station other than offers and blocks. The station has heard data/sample.bin, all of it offered by card one:
   four channels have a record, of four satellites, the book is full, and of two a navigation record can be told. The calls that ask change nothing, so
   they do the same each time.
   fresh and reset store and read nothing, so what the station was does not matter to them. A join of what is there already leaves all as it is;
   for one into an empty book the book is emptied first, and what that takes is measured alone, to be taken off. */
#include "rig.h"
#include "spineyarrow.h"
#include "station.h"
#include <stdio.h>
#include <string.h>
enum { CARD = 1, CHANNELS = 24, SLOTS = 24, RECORD = 16, BOOK = 480, TEXT = 320 };
static struct lent_station heard, other;
static uint8_t with_record[CHANNELS], known[CHANNELS], told[CHANNELS], filled[SLOTS], sent[BOOK], again[BOOK], text[TEXT];
static int32_t words[26], entry[13];
static uint32_t tallies[14], start;
static uint64_t summary[3];

static void fresh(int i) { spineyarrow_fresh(&other); }
static void reset(int i) { rig_sink = spineyarrow_reset(&other, CARD, with_record[i]); }
static void sums(int i) { rig_sink = spineyarrow_summary(&heard, CARD, summary, 3); }
static void health(int i) { rig_sink = spineyarrow_health(&heard, CARD, known[i]); }
static void counts(int i) { rig_sink = spineyarrow_tallies(&heard, CARD, with_record[i], tallies, 14); }
static void record(int i) { rig_sink = spineyarrow_record(&heard, CARD, with_record[i], words, 26, &start); }
static void slot(int i) { rig_sink = spineyarrow_entry(&heard, CARD, filled[i], entry, 13); }
static void book(int i) { rig_sink = spineyarrow_book(&heard, again, BOOK); }
static void emptied(int i) { memset(other.book, 0, sizeof other.book); }
static void join_empty(int i) { emptied(i); rig_sink = spineyarrow_join(&other, sent, BOOK); }
static void join_same(int i) { rig_sink = spineyarrow_join(&heard, sent, BOOK); }
static void navigation(int i) { rig_sink = spineyarrow_navigation(&heard, CARD, told[i], text, TEXT); }

static void hear(const uint8_t *records, int many) {
    for (; many > 0; many--, records += RECORD) {
        uint32_t epoch = (uint32_t)records[1] << 24 | records[2] << 16 | records[3] << 8 | records[4];
        spineyarrow_offer(&heard, CARD, records[0], epoch, records + 5, 11);
    }
}
/* measured, and what is said of a call that was refused */
static void taken(const char *label, rig_call call, int samples) {
    rig_run(label, call, samples);
    if (rig_sink & 255 || !samples) printf("REFUSED 0\n");
}

void lent_calls(const uint8_t *records, int many) {
    int c, nrecords = 0, nknown = 0, ntold = 0, nfilled = 0;
    hear(records, many);
    for (c = 0; c < CHANNELS; c++) {
        if (!(spineyarrow_record(&heard, CARD, c, words, 26, &start) & 255)) with_record[nrecords++] = c;
        if (spineyarrow_health(&heard, CARD, c)) known[nknown++] = c;
        if (!(spineyarrow_entry(&heard, CARD, c + 1, entry, 13) & 255)) filled[nfilled++] = c + 1;
        if (!(spineyarrow_navigation(&heard, CARD, c, text, TEXT) & 255)) told[ntold++] = c;
    }
    spineyarrow_book(&heard, sent, BOOK);
    rig_run("lent:fresh", fresh, 1);
    taken("lent:reset", reset, nrecords);
    taken("lent:summary", sums, 1);
    taken("lent:health", health, nknown);
    taken("lent:tallies", counts, nrecords);
    taken("lent:record", record, nrecords);
    taken("lent:entry", slot, nfilled);
    taken("lent:book", book, 1);
    rig_run("emptied", emptied, 1);
    taken("lent:join-empty", join_empty, 1);
    spineyarrow_book(&other, again, BOOK);
    if (memcmp(sent, again, BOOK)) printf("DIFFERENT 0\n");
    taken("lent:join-same", join_same, 1);
    taken("lent:navigation", navigation, ntold);
}
