/* What the two cards hear, a block after the other: card one's of the first second, card two's, card one's of the next second .. */
#ifndef BLOCKS_H
#define BLOCKS_H

#include <stdint.h>

/* the next block and its length, which may be 0; no pointer where there is no more */
const uint8_t *next_block(uint64_t *length);

#endif
