/*
 * guarded.h - memory for calls that are tried: blocks between pages that may not be touched, and what has changed in them.
 *
 * A block is at the very beginning or the very end of a page, so that the machine stops a call that reads or writes one byte too far.
 * The rest of the page holds a pattern. It is compared after the call, like everything that must not change.
 */
#ifndef GUARDED_H
#define GUARDED_H

#include <stdbool.h>
#include <stddef.h>
#include <stdint.h>

enum { BLOCKS = 8, PAGES = 2, PAGE = 4096, GUARDED_ROOM = PAGES * PAGE };

/* Numbers that are the same in each run. */
uint32_t draw(uint32_t bound);
bool one_in(uint32_t many);

/* Any byte, often one of the first or the last. */
uint8_t any_byte(void);

/* Allocates the pages; the seed determines the numbers. */
void begin_guarded(uint64_t seed);

/* A block of `size` bytes, at most GUARDED_ROOM, for the argument of this number, from 0; its bytes are drawn. */
void *block(int number, size_t size);

/* A block for the argument of this number, with these bytes. */
void *block_of(int number, const void *bytes, size_t size);

/* Stores the contents of all blocks, before a call. */
void note(void);

/* After a call: whether nothing has changed since `note`; or nothing but the first `size` bytes of a block, of two, or of each. */
bool unchanged(void);
bool changed_only(int number, size_t size);
bool changed_only_two(int number, size_t size, int other, size_t other_size);
bool changed_only_these(const size_t sizes[BLOCKS]);

/* Counts a call, and prints the first few that did not return what they have to. */
void tell(const char *call, bool as_it_has_to_be, long got, long want);

/* Prints how many calls of each name there were, and the line of counts; the status of the program. */
int end_guarded(void);

#endif
