/* a figure that the card's core tells beside the lines: `# NAME FIGURE` */
#ifndef M0_H
#define M0_H

#include <stdint.h>

void write_figure(const char *name, uint32_t figure);

#endif
