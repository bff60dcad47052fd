/* On a card the blocks come from the line. Here they are a table in the image, which host/card makes of the file card.blocks: for each block
   two bytes of length, the higher first, and so many bytes. */
#include "blocks.h"
#include <stddef.h>

extern const uint8_t card_blocks[];
extern const uint32_t card_blocks_bytes;

const uint8_t *next_block(uint64_t *length)
{
    static uint32_t at;
    if (at == card_blocks_bytes) return NULL;
    const uint8_t *block = card_blocks + at + 2;
    *length = (uint64_t)card_blocks[at] << 8 | card_blocks[at + 1];
    at += 2 + (uint32_t)*length;
    return block;
}
