/*
 * Oversnithe's functions for C and C++, on x86-64 Linux: link libstation.a, which
 * `tools/build station` proves and writes to target/staticlib.
 *
 * Bytes are lent as a pointer and a length.
 *   - The pointer is to `length` bytes that may be read, and written where it is not const, and
 *     that nobody else writes during the call. Nothing before or after them is touched.
 *   - With length 0 the pointer is not used, and may be null. Null with any other length is a
 *     fault of the caller.
 *   - A length is at most PTRDIFF_MAX, as that of any object in C.
 *
 * Every call returns, whatever the bytes are. Nothing is kept, allocated or shared between calls,
 * and no file is touched, so that calls may run side by side on any threads. The image check takes
 * 15 KB of stack, the others less. An error is the number that document 01 gives a refusal, 0 where
 * there is none.
 */
#ifndef OVERSNITHE_H
#define OVERSNITHE_H

#include <stdbool.h>
#include <stddef.h>
#include <stdint.h>

#ifdef __cplusplus
extern "C" {
#endif

/*
 * The checksum of any number of bytes: 255 less the low eight bits of their sum; 255 for none. The
 * bytes of a window give what the gauge has at 0x60.
 */
uint8_t oversnithe_checksum(const uint8_t *bytes, size_t length);

/*
 * Whether the text of a file, the whole of it, is an image file: 0 if it is, 10 if it is not.
 */
uint8_t oversnithe_image_check(const uint8_t *text, size_t length);

#define OVERSNITHE_MAX_CLASSES 32

/*
 * The classes of an image in the order of their bytes: identifier and length of each. Only the
 * first `count` entries mean anything.
 */
typedef struct {
    size_t count;
    uint8_t ids[OVERSNITHE_MAX_CLASSES];
    uint16_t lengths[OVERSNITHE_MAX_CLASSES];
} oversnithe_layout;

/* Kinds of a parameter: unsigned, or signed in two's complement. Any other number is no kind. */
#define OVERSNITHE_U8 0x01
#define OVERSNITHE_U16 0x02
#define OVERSNITHE_U32 0x04
#define OVERSNITHE_I8 0x81
#define OVERSNITHE_I16 0x82
#define OVERSNITHE_I32 0x84

/*
 * A parameter: the class and the offset of its first byte, its kind, and the least and the greatest
 * value in range. It is valid if min is at most max and both fit the kind.
 */
typedef struct {
    uint8_t class_id;
    uint16_t offset;
    uint8_t kind;
    int64_t min;
    int64_t max;
} oversnithe_parameter;

/* What reading one answers; refused, the value is 0 and not in range. */
typedef struct {
    uint8_t error;
    int64_t value;
    bool in_range;
} oversnithe_parameter_value;

/*
 * The value of a parameter, most significant byte first, and whether it is in range. Errors, in
 * this order: 10 the layout is invalid or the image has another length, 11 the parameter is
 * invalid, 4 its class is not in the layout, 12 its bytes leave the class.
 */
oversnithe_parameter_value oversnithe_parameter_get(oversnithe_layout layout, const uint8_t *image,
                                                    size_t length, oversnithe_parameter parameter);

/*
 * Sets a parameter to a value, and answers the error: those above, then 13 where the value is not
 * in range. The image's bytes of that parameter become the value's, and no other byte changes;
 * refused, none does. The image is what a gauge just powered on would leave, so there is no supply
 * to be told, and 17 is never answered. Where the bytes cross the end of a block of 32 bytes, that
 * gauge makes two commits, the lower block first.
 */
uint8_t oversnithe_parameter_set(oversnithe_layout layout, uint8_t *image, size_t length,
                                 oversnithe_parameter parameter, int64_t value);

/*
 * What a cut of power finds between these two commits: of the parameter's bytes those in the lower
 * block become the value's, and no other byte of the image changes. The errors are those of setting
 * it; where its bytes lie inside one block, so is all the rest. What is read then may be neither
 * the old value nor the new one, and out of range. Setting the value mends it: the image is then
 * what it would be without the cut.
 */
uint8_t oversnithe_parameter_set_lower(oversnithe_layout layout, uint8_t *image, size_t length,
                                       oversnithe_parameter parameter, int64_t value);

#ifdef __cplusplus
}
#endif

#endif
