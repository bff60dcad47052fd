/* Marks around a call, between which the plugin counts; and how deep a call writes into a painted stack. */
#include "rig.h"
#include <stdio.h>
enum { ROOM = 65536 };
volatile unsigned long long rig_sink;
__attribute__((noinline, used)) void rig_begin(void) { __asm__ volatile("" ::: "memory"); }
__attribute__((noinline, used)) void rig_end(void) { __asm__ volatile("" ::: "memory"); }
__attribute__((noinline)) static void counted(rig_call call, int i) { rig_begin(); call(i); rig_end(); }
__attribute__((noinline)) static void empty(int i) { __asm__ volatile("" ::: "memory"); }
/* a call of a leaf that uses no stack: what it takes is taken off */
__attribute__((noinline, noipa)) static unsigned long leaf(const unsigned char *p) { return 0; }
static const unsigned char some[12];
__attribute__((noinline)) static void calls_leaf(int i) { rig_sink = leaf(some + i); }
#if defined(__x86_64__)
#define STACK(x) __asm__ volatile("mov %%rsp, %0" : "=r"(x))
#else
#define STACK(x) __asm__ volatile("mov %0, sp" : "=r"(x))
#endif
/* painted in line, so that nothing but the call touches the room below */
__attribute__((noinline)) static unsigned long painted(rig_call call, int i, unsigned char with) {
    volatile unsigned char *sp, *p;
    STACK(sp);
    for (p = sp - ROOM; p < sp; p++) *p = with;
    call(i);
    STACK(sp);
    for (p = sp - ROOM; p < sp && *p == with; p++) ;
    return (unsigned long)(sp - p);
}
static unsigned long deepest(rig_call call, int i) {
    unsigned long a = painted(call, i, 0xA5), b = painted(call, i, 0x5A);
    return a > b ? a : b;
}
void rig_run(const char *label, rig_call call, int samples) {
    static int begun;
    static unsigned long base;
    int i;
    if (!begun) {
        begun = 1;
        base = deepest(calls_leaf, 0);
        counted(empty, 0);
        printf("empty 0\n");
    }
    for (i = 0; i < samples; i++) {
        unsigned long s;
        call(i);
        counted(call, i);
        s = deepest(call, i);
        printf("%s %lu\n", label, s > base ? s - base : 0);
    }
}
