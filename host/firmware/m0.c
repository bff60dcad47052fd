/* The card's core with nothing on it: vectors, the way from reset to receive(), lines and the end by semihosting, and how deep the stack was. */
#include "lines.h"
#include "m0.h"
#include "receiver.h"

/* places that m0.ld gives */
extern uint32_t data_begin[], data_end[], stack_begin[], stack_end[], bss_begin[], bss_end[];
extern const uint32_t data_kept[];

enum { SYS_WRITE0 = 0x04, SYS_EXIT = 0x18 };
enum { APPLICATION_EXIT = 0x20026, RUN_TIME_ERROR = 0x20023 };
static const uint32_t PAINT = 0xA5C3965A;

static void semihosting(uint32_t call, uintptr_t with)
{
    register uint32_t r0 __asm__("r0") = call;
    register uintptr_t r1 __asm__("r1") = with;
    __asm__ volatile("bkpt 0xAB" : "+r"(r0) : "r"(r1) : "memory");
}

void write_line(const char *line)
{
    semihosting(SYS_WRITE0, (uintptr_t)line);
}

/* a figure for host/card, which takes these lines out */
void write_figure(const char *name, uint32_t figure)
{
    char text[12] = { 0 };
    char *digits = text + 10;
    *digits = '\n';
    do *--digits = (char)('0' + figure % 10);
    while (figure /= 10);
    write_line("# ");
    write_line(name);
    write_line(" ");
    write_line(digits);
}

static void copy(uint32_t *to, const uint32_t *end, const uint32_t *from)
{
    while (to < end) *to++ = *from++;
}

static void fill(volatile uint32_t *to, const volatile uint32_t *end, uint32_t with)
{
    while (to < end) *to++ = with;
}

/* so many bytes of the stack were written since it was painted */
static uint32_t deepest(void)
{
    const uint32_t *p = stack_end;
    while (p < stack_begin && *p == PAINT) p++;
    return (uint32_t)(stack_begin - p) * sizeof *p;
}

__attribute__((noreturn)) static void end(uint32_t reason)
{
    for (;;) semihosting(SYS_EXIT, reason);
}

static void reset(void)
{
    const volatile uint32_t *here;
    __asm__ volatile("mov %0, sp" : "=r"(here));
    copy(data_begin, data_end, data_kept);
    fill(bss_begin, bss_end, 0);
    fill(stack_end, here - 16, PAINT); /* all but what this function and its callees have in use now */
    receive();
    write_figure("stack", deepest());
    end(APPLICATION_EXIT);
}

static void fault(void)
{
    write_line("# fault\n");
    end(RUN_TIME_ERROR);
}

/* the first sixteen words of memory: where the stack begins, where to start, and what to do in need */
__attribute__((section(".vectors"), used)) static const struct {
    uint32_t *stack;
    void (*handlers[15])(void);
} vectors = { stack_begin, { reset, fault, fault, fault, fault, fault, fault, fault, fault, fault, fault, fault, fault, fault, fault } };
