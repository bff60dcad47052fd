/* The calls that are measured, but for those of lent.c. The strings are the superframe that channel 1 hears in data/sample.bin: 75 strings, each
   plain, with one bit wrong and with two; and offered on four channels at once. */
#include "rig.h"
#include "sample.h"
#include "station.h"
#include <stdio.h>
#include <string.h>
typedef unsigned char u8;
typedef unsigned long long usize; /* a slice is a pointer and a length of 64 bits, on the Cortex-M0 too */
typedef unsigned long long told; /* the numbers of an answer, the first in the lowest byte */
extern told measured_relative(const u8 *s, usize n, u8 *out, usize room);
extern told measured_read(const u8 *s, usize n, u8 kind, int *words);
extern told measured_write(u8 m, u8 kind, const int *words, u8 *out, usize room);
extern u8 measured_offers(const u8 *records, usize n);
extern u8 measured_block(const u8 *block, usize n);
extern unsigned spineyarrow_check(const u8 *s, usize n, u8 *out, usize room);
extern unsigned spineyarrow_word(const u8 *s, usize n, u8 word, double *value);
extern unsigned spineyarrow_immediate(const u8 *one, usize n1, const u8 *two, usize n2, const u8 *three, usize n3, const u8 *four, usize n4, int *words, double *numbers);
extern told spineyarrow_offer(void *station, u8 card, u8 channel, unsigned epoch, const u8 *s, usize n);
extern told spineyarrow_field(void *station, u8 card, const u8 *block, usize n, usize at);
extern usize spineyarrow_next(const u8 *block, usize n, usize at);
extern void lent_calls(const u8 *records, int many); /* lent.c */

enum { STRINGS = 75, CHANNELS = 4, RECORD = 16, FIELD = 3 + RECORD, KINDS = 8 };
static u8 sent[STRINGS][11], plain[STRINGS][11], wrong1[STRINGS][11], wrong2[STRINGS][11], out[11];
static u8 number[STRINGS], kind[STRINGS], records[STRINGS * CHANNELS * RECORD], block[STRINGS * CHANNELS * FIELD];
static double value, numbers[12];
static int words[STRINGS][8], read[26], of_kind[KINDS + 1][STRINGS], many[KINDS + 1], now;
static struct lent_station station; /* all calls are card one's */

static void turn(u8 *s, int bit) { s[(85 - bit) / 8] ^= 1 << ((bit + 2) % 8); }
static void relative(int i) { rig_sink = measured_relative(sent[i], 11, out, 11); }
static void clean(int i) { rig_sink = spineyarrow_check(plain[i], 11, out, 11); }
static void repaired(int i) { rig_sink = spineyarrow_check(wrong1[i], 11, out, 11); }
static void damaged(int i) { rig_sink = spineyarrow_check(wrong2[i], 11, out, 11); }
static void reads(int i) { int j = of_kind[now][i]; rig_sink = measured_read(plain[j], 11, kind[j], read); }
static void writes(int i) { int j = of_kind[now][i]; rig_sink = measured_write(number[j], kind[j], words[j], out, 11); }
/* the first signed word of each string; the immediate record of each frame */
static void word(int i) {
    static const u8 first[] = { 0, 1, 4, 7, 11, 13, 15, 18, 21 };
    rig_sink = spineyarrow_word(plain[i], 11, first[kind[i]], &value);
}
static void immediate(int i) {
    const u8 (*s)[11] = (const u8 (*)[11])plain + i * 15;
    rig_sink = spineyarrow_immediate(s[0], 11, s[1], 11, s[2], 11, s[3], 11, read, numbers);
}
static void fresh(int i) { rig_sink = measured_offers(records, 0); }
static void by_value(int i) { rig_sink = measured_offers(records, sizeof records); }
static void by_value_block(int i) { rig_sink = measured_block(block, sizeof block); }
static u8 byte_told(told a) { return a & 255 ? a & 255 : a >> 8 & 255; }
static void lent(int i) {
    u8 said = 0;
    int k;
    memset(&station, 0, sizeof station);
    for (k = 0; k < STRINGS * CHANNELS; k++) {
        const u8 *r = records + RECORD * k;
        unsigned epoch = (unsigned)r[1] << 24 | r[2] << 16 | r[3] << 8 | r[4];
        said ^= byte_told(spineyarrow_offer(&station, 1, r[0], epoch, r + 5, 11));
    }
    rig_sink = said ^ station.book[0][18];
}
static void lent_block(int i) {
    u8 said = 0;
    usize at = 0, next;
    memset(&station, 0, sizeof station);
    for (;; at = next) {
        told a = spineyarrow_field(&station, 1, block, sizeof block, at);
        next = spineyarrow_next(block, sizeof block, at);
        if (next == at) break;
        said ^= byte_told(a >> 8);
    }
    rig_sink = said ^ station.book[0][18];
}

static void take(int n, const u8 *r) {
    int c;
    memcpy(sent[n], r + 5, 11);
    measured_relative(sent[n], 11, plain[n], 11);
    number[n] = plain[n][0] / 8 % 16;
    kind[n] = number[n] <= 5 ? number[n] : n >= 60 && number[n] == 14 ? 8 : 6 + number[n] % 2;
    memcpy(wrong1[n], plain[n], 11);
    turn(wrong1[n], 9 + n);
    memcpy(wrong2[n], wrong1[n], 11);
    turn(wrong2[n], 85 - n % 8);
    measured_read(plain[n], 11, kind[n], words[n]);
    of_kind[kind[n]][many[kind[n]]++] = n;
    for (c = 0; c < CHANNELS; c++) {
        u8 *record = records + RECORD * (n * CHANNELS + c), *field = block + FIELD * (n * CHANNELS + c);
        memcpy(record, r, RECORD);
        record[0] = c;
        field[0] = 1, field[1] = 0, field[2] = RECORD;
        memcpy(field + 3, record, RECORD);
    }
}

int main(void) {
    static const char *const name[] = { "", "1", "2", "3", "4", "5", "even", "odd", "14 of frame 5" };
    char label[40];
    int i, n = 0;
    for (i = 0; i < (int)sizeof sample / RECORD; i++)
        if (sample[RECORD * i] == 1) take(n++, sample + RECORD * i);
    rig_run("relative-reading", relative, STRINGS);
    rig_run("check,-clean", clean, STRINGS);
    rig_run("check,-repaired", repaired, STRINGS);
    rig_run("check,-damaged", damaged, STRINGS);
    for (now = 1; now <= KINDS; now++) sprintf(label, "read,-%d", now), rig_run(label, reads, many[now]);
    for (now = 1; now <= KINDS; now++) sprintf(label, "encode,-%d", now), rig_run(label, writes, many[now]);
    rig_run("a-word-as-a-float", word, STRINGS);
    rig_run("the-record-of-four-strings", immediate, STRINGS / 15);
    rig_run("fresh", fresh, 1);
    rig_run("by-value", by_value, 1);
    i = rig_sink;
    rig_run("lent", lent, 1);
    if (i != (int)rig_sink) printf("DIFFERENT 0\n");
    rig_run("lent-block", lent_block, 1);
    if (i != (int)rig_sink) printf("DIFFERENT 0\n");
    rig_run("by-value-block", by_value_block, 1);
    if (station.book[0][18] != (u8)rig_sink) printf("DIFFERENT 0\n");
    lent_calls(sample, sizeof sample / RECORD);
    return 0;
}
