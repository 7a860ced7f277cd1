/* What the tests of the C library share. */
#ifndef SHARED_H
#define SHARED_H

#include "wkb.h"
#include <stdbool.h>
#include <stdio.h>
#include <stdlib.h>

/* Prints what is wrong, and ends. */
void expect(bool holds, const char *what, const char *where);

/* The bytes that a text spells in hex, and how many there are. A capital letter stands for a word in little endian:
 * W, X, Y and Z for 1, 2, 3 and 4, N for a NaN, I and J for the infinities, O and M for 0 and -0. P is WX. */
size_t spelled(const char *text, uint8_t *bytes);

extern const wkb_options LITTLE_ISO;

/* The end of pages of so many bytes that may be read and written, before one that may not. */
uint8_t *end_of_pages(size_t size);

/* A copy that ends where such pages do. Each place has one at a time, of at most PLACE_MOST bytes. */
enum { PLACES = 8, PLACE_MOST = 1 << 20 };
void *at_the_end(int place, const void *from, size_t len);

/* Whether the page before this end can be written to. */
void can_be_written(uint8_t *end, bool can);

/* The tests, by their files. Each group ends the program where something is wrong. */
void calls_are_right(void);
void texts_are_right(void);
void levels_are_right(void);
void little_stack_is_taken(void);
void what_lasts_is_as_it_was(void);
void what_lasts_is_as_it_was_in_columns(void);

#endif
