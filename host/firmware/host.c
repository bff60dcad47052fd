/* The same program on a machine with a C library. */
#include "lines.h"
#include "receiver.h"
#include <stdio.h>

void write_line(const char *line)
{
    fputs(line, stdout);
}

int main(void)
{
    receive();
    return fflush(stdout) || ferror(stdout);
}
