/* What board.c has for libc.c: a byte out, to the one stream that there is. */
#ifndef BARE_H
#define BARE_H

#include <stddef.h>
#include <stdint.h>
#include <stdio.h>

void board_put(char byte);

#endif
