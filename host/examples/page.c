/*
 * The smallest page through the C interface: one row of two cells, coloured 0 and 1. It prints what the page program
 * prints for the same calls:
 *
 *     cc -std=c99 -Wall -Wextra -pedantic -I host host/examples/page.c target/staticlib/libimage.a -o page && ./page
 *
 * In a release, where all three files stand in one folder: cc -I . page.c libimage.a -o example && ./example
 */
#include <stdio.h>

#include "dbchoco.h"

static uint8_t image[DBCHOCO_IMAGE_LENGTH];
static uint8_t memory[DBCHOCO_MEMORY_LENGTH];

static const uint8_t colours[] = {0, 1};
static const int32_t clues[] = {-1, -1}; /* no clue */

static void refused(uint32_t number)
{
    if (number != DBCHOCO_DONE) {
        printf("(refused %u)\n", (unsigned)number);
    }
}

static void check(void)
{
    uint32_t number = dbchoco_check(image, sizeof image, memory, sizeof memory);
    uint32_t i;
    if (number < DBCHOCO_PASS) {
        refused(number);
    } else if (number < DBCHOCO_CONFLICT) {
        printf("(pass %u)\n", (unsigned)(number - DBCHOCO_PASS));
    } else {
        printf("(conflict");
        for (i = 0; i < number - DBCHOCO_CONFLICT; i++) {
            unsigned code = memory[2 * i] + 256u * memory[2 * i + 1];
            printf(" %u%c", code / 2, code % 2 ? 'w' : 'o');
        }
        printf(")\n");
    }
}

int main(void)
{
    printf("(answers\n");
    refused(dbchoco_fresh(image, sizeof image, 1, 2, colours, 2, clues, 2));
    check();
    refused(dbchoco_decide(image, sizeof image, 0, DBCHOCO_WALL));
    check();
    refused(dbchoco_undo(image, sizeof image));
    refused(dbchoco_decide(image, sizeof image, 0, DBCHOCO_OPEN));
    check();
    printf(")\n");
    return 0;
}
