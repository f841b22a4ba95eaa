/* Zukhtavo for C: pictures coded as frames, frames shown, packets received.
 *
 * A picture is grey, 0 to 255 a pixel, row by row, and has a size in blocks of four by four pixels:
 * 1 to 60 blocks across, 1 to 60 down and at most 224 in all, so 16 * across * down pixels. A video has
 * one size and one quantiser step, 1 to 64, throughout. Every call is given these three numbers.
 *
 * A flag is set unless it is 0. A slice of memory is a pointer and a length in bytes; the pointer must not
 * be NULL, not even with length 0. Memory that a call writes must overlap none that it is given besides.
 * The calls keep nothing, take no memory from the heap, and can be made from several threads at once;
 * each needs less than 128 KiB of stack (measured, not proved).
 *
 * Link libcamera.a, which ./build leaves in target/staticlib. */
#ifndef ZUKHTAVO_H
#define ZUKHTAVO_H

#include <stddef.h>
#include <stdint.h>

#ifdef __cplusplus
extern "C" {
#endif

/* ---- Answers ----
 *
 * Each call answers with one number. Take it apart by the three functions below and not by hand: the low
 * four bits are the kind, the next four the rejection code, and the others the length or the position;
 * but where the high bit is set, a source was rejected, and all other bits are its length. */

/* Kinds. */
enum {
    ZUKHTAVO_LENGTH = 0,  /* a frame was coded in so many bytes, or any frame fits in so many */
    ZUKHTAVO_SHOWN = 1,   /* the frame is valid, and its picture is in the output */
    ZUKHTAVO_INVALID = 2, /* the frame is invalid: a block would be taken from over an edge; nothing was changed */
    ZUKHTAVO_SURE = 3,    /* the packet was received, and the receiver is sure of its picture */
    ZUKHTAVO_UNSURE = 4,  /* the packet was received, and the receiver is not sure of its picture */
    ZUKHTAVO_REJECTED = 5 /* the call was rejected, and nothing was changed */
};

/* Rejection codes, in the order of the checks, and what the position is. */
enum {
    ZUKHTAVO_BLOCK_COUNT = 1,      /* across, down or the product is out of range: 0, 1 or 2 */
    ZUKHTAVO_STEP_RANGE = 2,       /* the step is out of range: 0 */
    ZUKHTAVO_PICTURE_LENGTH = 3,   /* the reference, or the output, has another length than the size says: 0 or 1 */
    ZUKHTAVO_SOURCE_LENGTH = 4,    /* the source has another length than the size says: its length */
    ZUKHTAVO_BUFFER_TOO_SHORT = 5, /* the frame does not fit in the buffer: its length */
    ZUKHTAVO_BAD_NUMBER = 7        /* the sequence number is above 2^62: 0 */
};

static inline int zukhtavo_kind(uint64_t answer) {
    return answer >> 63 ? ZUKHTAVO_REJECTED : (int)(answer & 15);
}

/* The rejection code, and 0 if the call was not rejected. */
static inline int zukhtavo_rejection(uint64_t answer) {
    return answer >> 63 ? ZUKHTAVO_SOURCE_LENGTH : (int)(answer >> 4 & 15);
}

/* The length of a ZUKHTAVO_LENGTH, the position of a ZUKHTAVO_REJECTED, and 0 of any other answer. */
static inline uint64_t zukhtavo_number(uint64_t answer) {
    return answer >> 63 ? answer & UINT64_MAX >> 1 : answer >> 8;
}

/* ---- Calls ---- */

/* How many bytes any frame fits in: 280 for each block, and 8.
 * Answers ZUKHTAVO_LENGTH or ZUKHTAVO_REJECTED. */
uint64_t zukhtavo_worst_case(uint64_t across, uint64_t down, uint64_t step);

/* Codes a source picture as a frame, a key frame if `key` is set; any other is made from the reference
 * picture, which is the one that the frame before left in its output. A key frame does not look at the
 * reference, but it must be there. The frame's bytes go to the start of the buffer, and the picture that
 * they mean, each pixel within half a step of the source, to the output. The output, and never the source,
 * is the next frame's reference.
 * Answers ZUKHTAVO_LENGTH, the number of bytes, or ZUKHTAVO_REJECTED. A buffer of the worst case is never
 * too short. */
uint64_t zukhtavo_code(uint64_t across, uint64_t down, uint64_t step, uint64_t key,
                       const uint8_t *source, size_t source_length,
                       const uint8_t *reference, size_t reference_length,
                       uint8_t *buffer, size_t buffer_length,
                       uint8_t *output, size_t output_length);

/* Shows a frame in the output, made from the reference picture unless `key` is set. Any bytes will do: they
 * are a valid frame or an invalid one.
 * Answers ZUKHTAVO_SHOWN, ZUKHTAVO_INVALID or ZUKHTAVO_REJECTED. */
uint64_t zukhtavo_show(uint64_t across, uint64_t down, uint64_t step, uint64_t key,
                       const uint8_t *bytes, size_t bytes_length,
                       const uint8_t *reference, size_t reference_length,
                       uint8_t *output, size_t output_length);

/* A receiver of a video's packets, beside the picture that it shows. At first both numbers and all pixels
 * of the picture are 0. */
typedef struct {
    uint64_t next; /* the sequence number that it expects next */
    uint64_t sure; /* whether it is sure of its picture: 0 if it is not */
} zukhtavo_receiver;

/* Receives a packet, which is a frame with its sequence number, counted from 0: the picture is shown anew,
 * or stays as it is. Packets may come in any order, more than once or never; as long as they are a video's
 * packets, what the receiver is sure of is what the video shows at the number before the expected one.
 * Answers ZUKHTAVO_SURE, ZUKHTAVO_UNSURE or ZUKHTAVO_REJECTED. */
uint64_t zukhtavo_receive(uint64_t across, uint64_t down, uint64_t step,
                          zukhtavo_receiver *receiver, uint64_t number, uint64_t key,
                          const uint8_t *bytes, size_t bytes_length,
                          uint8_t *picture, size_t picture_length);

#ifdef __cplusplus
}
#endif

#endif
