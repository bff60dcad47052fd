/* How deep each call goes: the linker puts these in the place of the calls (--wrap), in an image of its own. Each paints the stack below it, makes
   the call, and looks how far the paint is gone. */
#include "m0.h"
#include "receiver.h"
#include "spineyarrow.h"

enum { ROOM = 1024 }; /* words */
static const uint32_t PAINT = 0xC35AA596;

/* in line, since a function would write into the stack below itself */
#define PAINTED(sp)                                     \
    volatile uint32_t *sp;                              \
    __asm__ volatile("mov %0, sp" : "=r"(sp));          \
    for (int i = 1; i <= ROOM; i++) sp[-i] = PAINT

static void look(uint32_t *deepest, const volatile uint32_t *sp)
{
    int depth = ROOM;
    while (depth && sp[-depth] == PAINT) depth--;
    if (*deepest < 4u * (uint32_t)depth) *deepest = 4u * (uint32_t)depth;
}

#define MEASURED(name, taken, handed)                   \
    uint64_t __real_##name taken;                       \
    uint64_t __wrap_##name taken;                       \
    static uint32_t deepest_##name;                     \
    uint64_t __wrap_##name taken                        \
    {                                                   \
        PAINTED(sp);                                    \
        uint64_t told = __real_##name handed;           \
        look(&deepest_##name, sp);                      \
        return told;                                    \
    }

MEASURED(spineyarrow_field, (void *station, uint8_t card, const uint8_t *block, uint64_t length, uint64_t at), (station, card, block, length, at))
MEASURED(spineyarrow_next, (const uint8_t *block, uint64_t length, uint64_t at), (block, length, at))
MEASURED(spineyarrow_summary, (const void *station, uint8_t card, uint64_t *out, uint64_t room), (station, card, out, room))
MEASURED(spineyarrow_health, (const void *station, uint8_t card, uint8_t channel), (station, card, channel))
MEASURED(spineyarrow_record, (const void *station, uint8_t card, uint8_t channel, int32_t *words, uint64_t room, uint32_t *start),
    (station, card, channel, words, room, start))
MEASURED(spineyarrow_tallies, (const void *station, uint8_t card, uint8_t channel, uint32_t *out, uint64_t room), (station, card, channel, out, room))
MEASURED(spineyarrow_entry, (const void *station, uint8_t card, uint8_t slot, int32_t *out, uint64_t room), (station, card, slot, out, room))
MEASURED(spineyarrow_navigation, (const void *station, uint8_t card, uint8_t channel, uint8_t *out, uint64_t room), (station, card, channel, out, room))

void __real_spineyarrow_fresh(void *station);
void __wrap_spineyarrow_fresh(void *station);
static uint32_t deepest_spineyarrow_fresh;
void __wrap_spineyarrow_fresh(void *station)
{
    PAINTED(sp);
    __real_spineyarrow_fresh(station);
    look(&deepest_spineyarrow_fresh, sp);
}

#define TELL(name) write_figure(#name, deepest_##name)

void __real_receive(void);
void __wrap_receive(void);
void __wrap_receive(void)
{
    __real_receive();
    TELL(spineyarrow_fresh);
    TELL(spineyarrow_field);
    TELL(spineyarrow_next);
    TELL(spineyarrow_summary);
    TELL(spineyarrow_health);
    TELL(spineyarrow_record);
    TELL(spineyarrow_tallies);
    TELL(spineyarrow_entry);
    TELL(spineyarrow_navigation);
}
