/* Clips the example drawing to the rectangle 0,0,100,100 as a firmware would, and prints each returned path as a line: its kind, its
 * number of points, its coordinates. Then one call for each refusal but
 * 9, which never comes, as X and the number. */
#include <inttypes.h>
#include <stdbool.h>
#include <stdint.h>
#include <stdio.h>
#include <string.h>

#include "rectclip.h"

enum { UNTOUCHED = 0xA5 };

struct lists {
    uint8_t coordinates[RECT_CLIP_COORDINATES];
    uint8_t lengths[RECT_CLIP_LENGTHS];
    uint8_t counts[RECT_CLIP_COUNTS];
};

static void put_word(uint8_t *bytes, uint32_t n)
{
    for (int i = 0; i < 4; i++)
        bytes[i] = (uint8_t)(n >> (8 * i));
}

static uint32_t word(const uint8_t *bytes)
{
    return bytes[0] | (uint32_t)bytes[1] << 8 | (uint32_t)bytes[2] << 16 | (uint32_t)bytes[3] << 24;
}

/* Whether bytes still hold what `fresh` put there. */
static bool untouched(const uint8_t *bytes, size_t from, size_t to)
{
    for (size_t i = from; i < to; i++)
        if (bytes[i] != UNTOUCHED)
            return false;
    return true;
}

static void fresh(struct lists *l)
{
    memset(l, UNTOUCHED, sizeof *l);
}

/* Prints a result, or a refusal, and says where a list holds what the header does not promise. */
static void print(char kind, uint32_t value, const struct lists *l)
{
    size_t paths = 0, points = 0;
    if (value == RECT_CLIP_DONE) {
        const uint8_t *next = l->coordinates;
        paths = word(l->counts);
        points = word(l->counts + 4);
        printf("%c: %zu paths, %zu points, %" PRIu32 " turns\n", kind, paths, points, word(l->counts + 8));
        for (size_t i = 0; i < paths; i++) {
            uint32_t length = word(l->lengths + 4 * i);
            printf("%c,%" PRIu32, kind, length);
            for (uint32_t k = 0; k < 2 * length; k++, next += 4)
                printf(",%" PRId32, (int32_t)word(next));
            printf("\n");
        }
    } else {
        printf("X,%" PRIu32 "\n", value);
        if (!untouched(l->counts, 0, sizeof l->counts))
            printf("the counts changed\n");
    }
    if (!untouched(l->coordinates, 8 * points, sizeof l->coordinates))
        printf("a coordinate behind the result changed\n");
    if (!untouched(l->lengths, 4 * paths, sizeof l->lengths))
        printf("a length behind the result changed\n");
}

/* One call with the path's first `bytes` bytes, and a coordinate list of `room` bytes. */
static void call(char kind, int64_t right, const int32_t *numbers, size_t bytes, size_t room)
{
    uint8_t path[8 * (RECT_CLIP_POINTS + 1)];
    struct lists l;
    for (size_t i = 0; i < (bytes + 3) / 4; i++)
        put_word(path + 4 * i, (uint32_t)numbers[i]);
    fresh(&l);
    uint32_t value = (kind == 'C' ? rect_clip64 : rect_clip_lines64)(
        0, 0, right, 100, path, bytes, l.coordinates, room, l.lengths, sizeof l.lengths, l.counts, sizeof l.counts);
    print(kind, value, &l);
}

/* 128 points of a square about the rectangle, which take the walk or the tidying past what is allowed. */
static void scatter(int32_t *numbers, int side, int across, int down)
{
    for (int i = 0; i < RECT_CLIP_POINTS; i++) {
        numbers[2 * i] = i * across % side - (side - 100) / 2;
        numbers[2 * i + 1] = i * down % side - (side - 100) / 2;
    }
}

int main(void)
{
    static const int32_t closed[] = {50, 50, 150, 50, 150, 80, 50, 80};
    static const int32_t line[] = {-50, 10, 150, 10};
    static const int32_t below[] = {-10, -10, 50, 50};
    static const int32_t far[] = {0, 0, 33554433, 0};
    static int32_t zigzag[2 * (RECT_CLIP_POINTS + 1)];
    const size_t room = RECT_CLIP_COORDINATES;

    call('C', 100, closed, sizeof closed, room);
    call('L', 100, line, sizeof line, room);
    call('L', 100, below, sizeof below, room);
    call('L', 100, line, sizeof line - 4, room);
    for (int i = 0; i <= RECT_CLIP_POINTS; i++) {
        zigzag[2 * i] = i % 2 ? 150 : -50;
        zigzag[2 * i + 1] = i / 2;
    }
    call('L', 100, zigzag, sizeof zigzag, room);
    call('L', 33554433, line, sizeof line, room);
    call('L', 100, far, sizeof far, room);
    scatter(zigzag, 250, 148, 176);
    call('C', 100, zigzag, sizeof zigzag - 8, room);
    scatter(zigzag, 150, 1, 50);
    call('C', 100, zigzag, sizeof zigzag - 8, room);
    call('C', 100, closed, sizeof closed, 31);
    return 0;
}
