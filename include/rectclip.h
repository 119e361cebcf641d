/* Clips one path to a rectangle. Y grows downward: top is the smaller y.
 *
 * Both functions take the rectangle, the path, and three lists for the result, each with its length in bytes. Every number in a list
 * is four bytes, the lowest first, read as signed 32 bits where it is a coordinate.
 *
 * path         x then y of each point, 8 bytes a point, at most 128 points
 * coordinates  x then y of each returned point, all paths one behind the other
 * lengths      the number of points of each returned path
 * counts       paths, points and turns, 12 bytes
 *
 * RECT_CLIP_DONE is a result: the leading entries of the three lists are filled, and the others stay as they came. Any other value
 * is a refusal, and all three lists stay as they came. A result has at most 256 points and 257 paths, so lists of
 * RECT_CLIP_COORDINATES, RECT_CLIP_LENGTHS and RECT_CLIP_COUNTS bytes are never too short.
 *
 * The lists must not overlap, and no pointer may be null, not even that of a list of no bytes. A call takes some 50 KB of stack.
 */
#ifndef RECTCLIP_H
#define RECTCLIP_H

#include <stddef.h>
#include <stdint.h>

#ifdef __cplusplus
extern "C" {
#endif

#define RECT_CLIP_POINTS 128
#define RECT_CLIP_COORDINATES 2048
#define RECT_CLIP_LENGTHS 1028
#define RECT_CLIP_COUNTS 12

enum rect_clip_value {
    RECT_CLIP_DONE = 0,
    RECT_CLIP_HALF_POINT = 1,         /* the path's bytes are no multiple of 8 */
    RECT_CLIP_PATH_TOO_LONG = 5,      /* more than 128 points */
    RECT_CLIP_RECTANGLE_OUTSIDE = 6,  /* a side of the rectangle is beyond -33,554,432 to 33,554,432 */
    RECT_CLIP_PATH_OUTSIDE = 7,       /* a coordinate of the path is */
    RECT_CLIP_STORE_FULL = 8,         /* the walk round the rectangle needs more than 256 points or start sides */
    /* 9 is not used */
    RECT_CLIP_TURNS_SPENT = 10,       /* more than 256 tidy turns; closed paths only */
    RECT_CLIP_LISTS_TOO_SHORT = 11    /* coordinates, lengths or counts cannot hold the whole result */
};

/* A closed path: the last point is joined to the first. */
uint32_t rect_clip64(int64_t left, int64_t top, int64_t right, int64_t bottom,
                     const uint8_t *path, size_t path_bytes,
                     uint8_t *coordinates, size_t coordinates_bytes,
                     uint8_t *lengths, size_t lengths_bytes,
                     uint8_t *counts, size_t counts_bytes);

/* An open path. */
uint32_t rect_clip_lines64(int64_t left, int64_t top, int64_t right, int64_t bottom,
                           const uint8_t *path, size_t path_bytes,
                           uint8_t *coordinates, size_t coordinates_bytes,
                           uint8_t *lengths, size_t lengths_bytes,
                           uint8_t *counts, size_t counts_bytes);

#ifdef __cplusplus
}
#endif

#endif
