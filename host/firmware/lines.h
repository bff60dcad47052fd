/* The lines of answers, as ./trial prints them (second/README.md, Requests). `told` is what the call answered; what it wrote is printed where
   it was taken alone. */
#ifndef LINES_H
#define LINES_H

#include "spineyarrow.h"

/* each machine's own: writes a line, which ends with a line feed and a zero */
void write_line(const char *line);

void print_offer(uint64_t told);                                           /* taken M BIT NEWS P */
void print_reset(uint64_t told);                                           /* ok */
void print_end(uint64_t told, uint64_t place);                             /* end; or no N PLACE */
void print_summary(uint64_t told, const uint64_t panel[3]);                /* ok COUNT OLDEST NEWEST */
void print_health(uint64_t told);                                          /* ok 0 unknown, 1 usable, 2 not usable */
void print_record(uint64_t told, const int32_t words[26], uint32_t start); /* ok, 26 words, START */
void print_tallies(uint64_t told, const uint32_t tallies[14]);             /* ok, fourteen tallies */
void print_words(uint64_t told, const int32_t day_and_words[13]);          /* ok, the twelve words of an entry */

/* ok DAY EVEN ODD: the even string's bits 80..9 and the odd string's bits 80..10, in 18 hex digits each */
void print_entry(uint64_t told, const int32_t day_and_words[13], const struct spineyarrow_entry *entry);

/* a navigation record: four lines of 79 columns and a line feed */
enum { NAVIGATION_BYTES = 320 };
void print_navigation(uint64_t told, const uint8_t text[NAVIGATION_BYTES]); /* ok and four lines, with a bar between them */

#endif
