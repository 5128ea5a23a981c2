/*
 * Making an image from C: a host that writes a fresh image itself gets the same bytes as dbchoco_fresh, and goes on
 * from its own; each refusal has its number and leaves the bytes. Prints "right", or the first line at fault.
 */
#include <stdio.h>
#include <string.h>

#include "dbchoco.h"

static uint8_t own[DBCHOCO_IMAGE_LENGTH];
static uint8_t lent[DBCHOCO_IMAGE_LENGTH + 2];
static uint8_t before[DBCHOCO_IMAGE_LENGTH + 2];
static uint8_t memory[DBCHOCO_MEMORY_LENGTH];

static const uint8_t colours[] = {0, 1, 2};
static const int32_t clues[] = {-1, 2147483647, -2};

/* A page of one row, written as document 01 lays it out, with document 02's tally. */
static void lay_out(uint8_t width)
{
    int cell, byte;
    memset(own, 0, sizeof own);
    own[DBCHOCO_HEIGHT_AT] = 1;
    own[DBCHOCO_WIDTH_AT] = width;
    for (cell = 0; cell < width; cell++) {
        own[DBCHOCO_COLOURS_AT + cell] = colours[cell];
        for (byte = 0; byte < 4; byte++) {
            own[DBCHOCO_CLUES_AT + 4 * cell + byte] = (uint8_t)((uint32_t)clues[cell] >> (8 * byte));
        }
    }
    own[DBCHOCO_UNDECIDED_AT] = (uint8_t)(width - 1);
}

/* Makes an image in dirty bytes. Whether the number is the one wanted, and nothing beside the image is written. */
static int made(size_t image_len, uint32_t height, uint32_t width, size_t cells, uint32_t wanted)
{
    uint32_t number;
    memset(lent, 0xa5, sizeof lent);
    memcpy(before, lent, sizeof lent);
    number = dbchoco_fresh(lent + 1, image_len, height, width, colours, cells, clues, cells);
    if (number == DBCHOCO_DONE) {
        memcpy(before + 1, own, sizeof own);
    }
    return number == wanted && memcmp(before, lent, sizeof lent) == 0;
}

static unsigned check(void)
{
    return (unsigned)dbchoco_check(own, sizeof own, memory, sizeof memory);
}

/* Whether the image's tally is this one. */
static int tally(uint8_t undecided, uint8_t walls, uint8_t opens)
{
    const uint8_t wanted[] = {undecided, 0, walls, 0, opens, 0};
    return memcmp(own + DBCHOCO_UNDECIDED_AT, wanted, sizeof wanted) == 0;
}

#define EXPECT(fact)                         \
    do {                                     \
        if (!(fact)) {                       \
            printf("line %d\n", __LINE__);   \
            return 1;                        \
        }                                    \
    } while (0)

int main(void)
{
    lay_out(2);
    EXPECT(made(sizeof own, 1, 2, 2, DBCHOCO_DONE));
    EXPECT(made(sizeof own, 1, 0, 0, DBCHOCO_SIZE));
    EXPECT(made(sizeof own, 33, 1, 2, DBCHOCO_SIZE));
    EXPECT(made(sizeof own, 257, 2, 2, DBCHOCO_SIZE));
    EXPECT(made(sizeof own, 1, 2, 1, DBCHOCO_RAGGED));
    EXPECT(made(sizeof own, 1, 2, 3, DBCHOCO_RAGGED));
    EXPECT(made(sizeof own, 1, 3, 3, DBCHOCO_COLOUR));
    EXPECT(dbchoco_fresh(lent + 1, sizeof own, 1, 1, colours, 1, clues + 2, 1) == DBCHOCO_CLUE);
    EXPECT(memcmp(before, lent, sizeof lent) == 0);
    EXPECT(made(sizeof own - 1, 1, 2, 2, DBCHOCO_ALIEN));
    EXPECT(made(sizeof own + 1, 1, 2, 2, DBCHOCO_ALIEN));
    EXPECT(made(0, 1, 3, 3, DBCHOCO_COLOUR)); /* 3 comes before 5 */

    memset(own + DBCHOCO_CLUES_AT + 4, 0xff, 4);
    EXPECT(check() == DBCHOCO_PASS + 1);
    EXPECT(dbchoco_check(own, sizeof own, memory, sizeof memory - 1) == DBCHOCO_SHORT);
    EXPECT(dbchoco_decide(own, sizeof own, 0, DBCHOCO_WALL) == DBCHOCO_DONE && tally(0, 1, 0));
    EXPECT(check() == DBCHOCO_CONFLICT + 1);
    EXPECT(memory[0] == 1 && memory[1] == 0);
    EXPECT(dbchoco_undo(own, sizeof own) == DBCHOCO_DONE && tally(1, 0, 0));
    EXPECT(dbchoco_decide(own, sizeof own, 0, DBCHOCO_OPEN) == DBCHOCO_DONE && tally(0, 0, 1));
    EXPECT(check() == DBCHOCO_PASS);
    memset(own + DBCHOCO_UNDECIDED_AT, 0, 6);
    EXPECT(check() == DBCHOCO_ALIEN);
    own[DBCHOCO_WALLS_AT] = 1;
    EXPECT(check() == DBCHOCO_ALIEN);
    EXPECT(dbchoco_check(own, DBCHOCO_UNDECIDED_AT, memory, sizeof memory) == DBCHOCO_ALIEN);
    own[DBCHOCO_WALLS_AT] = 0;
    own[DBCHOCO_OPENS_AT] = 1;
    EXPECT(check() == DBCHOCO_PASS);
    printf("right\n");
    return 0;
}
