/*
 * imagecheck FILE...: says of each file whether it is an image file, and the checksum of its bytes.
 *
 * A file that cannot be read has no line on standard output but a reason on standard error. The
 * status is 0 if every file is an image file, 1 if one is not or if something could not be read or
 * written, and 2 if no file is named.
 */
#include <errno.h>
#include <stdbool.h>
#include <stdint.h>
#include <stdio.h>
#include <stdlib.h>
#include <string.h>

#include "oversnithe.h"

/* Bytes read at a time, and the room of the first buffer. */
#define CHUNK 16384

/* The bytes of a file so far. Nothing is allocated for an empty one: null and length 0 are lent. */
typedef struct {
    uint8_t *bytes;
    size_t length;
    size_t room;
} contents;

/* Doubles the room, which is enough for a chunk more. The library takes lengths to PTRDIFF_MAX. */
static bool grow(contents *file)
{
    if (file->room > (size_t)PTRDIFF_MAX / 2)
        return false;
    size_t room = file->room == 0 ? CHUNK : 2 * file->room;
    uint8_t *bytes = realloc(file->bytes, room);
    if (bytes == NULL)
        return false;
    file->bytes = bytes;
    file->room = room;
    return true;
}

/* Appends a chunk. Where there is no memory for it, errno says so as after a failed read. */
static bool append(contents *file, const uint8_t *chunk, size_t length)
{
    if (file->room - file->length < length && !grow(file)) {
        errno = ENOMEM;
        return false;
    }
    memcpy(file->bytes + file->length, chunk, length);
    file->length += length;
    return true;
}

/* Reads to the end, and not to a size that was asked for before: a pipe has none. */
static bool read_stream(FILE *stream, contents *file)
{
    uint8_t chunk[CHUNK];
    for (;;) {
        size_t length = fread(chunk, 1, sizeof chunk, stream);
        if (ferror(stream))
            return false;
        if (length == 0)
            return true;
        if (!append(file, chunk, length))
            return false;
    }
}

/* Where the file cannot be read, errno says why. */
static bool read_file(const char *path, contents *file)
{
    FILE *stream = fopen(path, "rb");
    if (stream == NULL)
        return false;
    bool is_read = read_stream(stream, file);
    int reason = errno;
    fclose(stream);
    errno = reason;
    return is_read;
}

/* Prints the line of a file that was read. Answers whether it is an image file. */
static bool print_verdict(const char *path, const contents *file)
{
    unsigned error = oversnithe_image_check(file->bytes, file->length);
    unsigned checksum = oversnithe_checksum(file->bytes, file->length);
    if (error == 0)
        printf("%s: image file, checksum %02X\n", path, checksum);
    else
        printf("%s: no image file (%u), checksum %02X\n", path, error, checksum);
    return error == 0;
}

/* Answers whether the file could be read and is an image file. */
static bool check(const char *path)
{
    contents file = {NULL, 0, 0};
    bool is_image = false;
    if (read_file(path, &file))
        is_image = print_verdict(path, &file);
    else
        fprintf(stderr, "imagecheck: %s: %s\n", path, strerror(errno));
    free(file.bytes);
    return is_image;
}

int main(int count, char **arguments)
{
    if (count < 2) {
        fputs("usage: imagecheck FILE...\n", stderr);
        return 2;
    }
    int status = 0;
    for (int i = 1; i < count; i++) {
        if (!check(arguments[i]))
            status = 1;
    }
    /* A line may have failed before, and what is still in the buffer may fail now. */
    if (fflush(stdout) == EOF || ferror(stdout)) {
        fputs("imagecheck: standard output could not be written\n", stderr);
        status = 1;
    }
    return status;
}
