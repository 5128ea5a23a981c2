/*
 * The Double Choco border checker: a call that makes a board image, three calls on one, and lists of decides and undos
 * in one call.
 *
 * Link with libimage.a: a release has it beside this file, and in the repository `tools/build library image` writes it
 * to target/staticlib. The library keeps no state, allocates nothing and calls nothing but memcpy and memset: calls on
 * different images may run at the same time. A check takes up to 192 KiB of stack, any other call up to 64 KiB.
 *
 * THE IMAGE is 11,082 bytes that the host owns. Numbers of more than one byte have their low byte first.
 *
 *     at      places    bytes each    what
 *     0       1         1             height h, 1 to 32
 *     1       1         1             width w, 1 to 32
 *     2       1,024     1             colours of the cells, 0 or 1
 *     1,026   1,024     4             clues of the cells, two's complement; -1 is none
 *     5,122   1,984     1             borders: 0 undecided, 1 wall, 2 open
 *     7,106   1         2             stack count: how many borders are decided
 *     7,108   1,984     2             stack entries: the decided borders, the last decided last
 *     11,076  1         2             tally: how many borders are undecided
 *     11,078  1         2             tally: how many borders are wall
 *     11,080  1         2             tally: how many borders are open
 *
 * Cell (y, x), row and column from 0, has number y*w + x. The border right of it has number y*(w-1) + x, the border
 * below it h*(w-1) + y*w + x; there are h*(w-1) + (h-1)*w borders. Places beyond the last cell, border or stack entry
 * are unused, and unused places are 0.
 *
 * A fresh image has height, width, colours and clues, the count of borders at 11,076, and 0 everywhere else.
 * dbchoco_fresh makes one; a host may also write the bytes itself. From then on the calls below keep it, the tally too,
 * which a host only reads. An image that no fresh image becomes by decides and undos is alien, and every call on it is
 * refused. So an image whose tally is not that of its borders is alien, and one of 11,076 bytes, from before the
 * tally; with its three counts appended the latter is taken.
 *
 * REASON MEMORY is at least 3,968 bytes, which is enough for every reason: no border is named twice. A literal takes 2
 * bytes, low byte first: twice the border's number, plus 1 for wall.
 *
 * EVERY CALL but dbchoco_calls returns one number. If it is from 1 to 9 the call was refused, and image and memory are
 * as they were: making an image is refused with 1 to 5, a call on an image with 5 to 9. Where several refusals apply
 * the lowest number is given.
 *
 * Images, memory and lists pass as their address and their length, a list's length being the count of its numbers. The
 * address must be valid for that many, and a multiple of one number's size. What a call writes must not overlap what
 * else is lent to it, and nothing else may write any of it during the call; a length of 0 takes any such address that
 * is not null. Nothing beyond the length is read or written.
 */
#ifndef DBCHOCO_H
#define DBCHOCO_H

#include <stddef.h>
#include <stdint.h>

#ifdef __cplusplus
extern "C" {
#endif

/* Lengths in bytes: of an image; the least of reason memory. */
#define DBCHOCO_IMAGE_LENGTH 11082
#define DBCHOCO_MEMORY_LENGTH 3968

/* Where the parts of an image start. */
#define DBCHOCO_HEIGHT_AT 0
#define DBCHOCO_WIDTH_AT 1
#define DBCHOCO_COLOURS_AT 2
#define DBCHOCO_CLUES_AT 1026
#define DBCHOCO_BORDERS_AT 5122
#define DBCHOCO_COUNT_AT 7106
#define DBCHOCO_STACK_AT 7108
#define DBCHOCO_UNDECIDED_AT 11076
#define DBCHOCO_WALLS_AT 11078
#define DBCHOCO_OPENS_AT 11080

/* What a call returns: an image made, a decide or undo done. */
#define DBCHOCO_DONE 0u

/* A refusal. */
#define DBCHOCO_SIZE 1u   /* height or width is not from 1 to 32 */
#define DBCHOCO_RAGGED 2u /* not as many colours, or clues, as cells */
#define DBCHOCO_COLOUR 3u /* a colour is neither 0 nor 1 */
#define DBCHOCO_CLUE 4u   /* a clue is below -1 */
#define DBCHOCO_ALIEN 5u  /* the image has another length, or decides and undos cannot make it of a fresh image */
#define DBCHOCO_BORDER 6u /* the border's number is not below the count of borders */
#define DBCHOCO_TAKEN 7u  /* the border is decided already */
#define DBCHOCO_BARE 8u   /* undo with nothing decided */
#define DBCHOCO_SHORT 9u  /* reason memory below 3,968 bytes */

/* A check that passes: this plus the count of undecided borders. */
#define DBCHOCO_PASS 32u

/* A check in conflict: this plus the count of literals, from 65,536 up. */
#define DBCHOCO_CONFLICT 65536u

/* Sides of a decide. */
#define DBCHOCO_OPEN 0u
#define DBCHOCO_WALL 1u

/*
 * Makes the fresh image of a page in the lent bytes, whatever they held. Colours and clues stand by cell number, row by
 * row. Numbers are not cut: height 257 is refused with 1.
 * Returns 0, or 1, 2, 3, 4 for the page, or 5 if image_len is not 11,082.
 */
uint32_t dbchoco_fresh(uint8_t *image, size_t image_len, uint32_t height, uint32_t width, const uint8_t *colours,
                       size_t colours_len, const int32_t *clues, size_t clues_len);

/*
 * Decides a border: side 0 makes it open, any other number wall. Numbers are not cut: border 65,536 is refused with 6,
 * and side 256 is wall. The border gets its side, its number goes on the stack, and the tally counts it by its side.
 * Returns 0, or 5, 6, 7.
 */
uint32_t dbchoco_decide(uint8_t *image, size_t image_len, uint32_t border, uint32_t side);

/*
 * Takes the last decision back: its border is undecided again, also in the tally, and its place on the stack is 0.
 * Returns 0, or 5, 8.
 */
uint32_t dbchoco_undo(uint8_t *image, size_t image_len);

/*
 * Checks the image, which is only read.
 * Returns 5 or 9; or 32 plus the count of undecided borders for a pass, which writes nothing; or 65,536 plus the count
 * of literals for a conflict, which writes the literals from the start of the memory and nothing beyond them.
 * The literals of a conflict all hold on the board, no two name one border, and no solution has them all; an image
 * without undecided borders passes exactly if it is a solution.
 */
uint32_t dbchoco_check(const uint8_t *image, size_t image_len, uint8_t *memory, size_t memory_len);

/*
 * Decides and undos in one call, the image tested once: each code is a literal that is decided, as in reason memory, or
 * DBCHOCO_UNDO. The calls are made one after the other up to the first that would be refused; that one and those after
 * it are not made.
 * Returns how many were made: the count of codes if all were. Why the next one is refused, dbchoco_decide or
 * dbchoco_undo tells; on an alien image none is made.
 */
size_t dbchoco_calls(uint8_t *image, size_t image_len, const uint16_t *codes, size_t codes_len);

/* The code of an undo. */
#define DBCHOCO_UNDO 65535u

#ifdef __cplusplus
}
#endif

#endif
