// convert FILE: makes the conversions of a file and prints a line for each, "CASE ANSWER LENGTH HEX": its number from 0, the answer, the length that was told,
// and the whole room behind the call ("-" where it has no bytes). The second program prints the same lines (second --convert FILE).
//
// A file has cases one behind the other: the image, the list of names, each behind its length, and the length of the room; lengths are numbers of 32 bits,
// little-endian. A file that cannot be read or is broken ends with status 2, behind the lines of its whole cases.
#include <aygeshunt.h>
#include <stdbool.h>
#include <stdint.h>
#include <stdio.h>
#include <stdlib.h>
#include <string.h>

// What a room holds before the call.
enum { FILLING = 0xa5 };

typedef struct {
    const uint8_t *at;
    size_t len;
} slice;

static void *must(void *storage) {
    if (storage) return storage;
    fputs("convert: out of memory\n", stderr);
    exit(2);
}

static bool take_number(slice *rest, uint32_t *number) {
    if (rest->len < 4) return false;
    *number = aygeshunt_word(rest->at, 0);
    rest->at += 4, rest->len -= 4;
    return true;
}

// Takes a length and as many bytes.
static bool take_bytes(slice *rest, slice *taken) {
    uint32_t len;
    if (!take_number(rest, &len) || rest->len < len) return false;
    *taken = (slice){rest->at, len};
    rest->at += len, rest->len -= len;
    return true;
}

static void print_room(const uint8_t *room, size_t len) {
    static const char digits[] = "0123456789abcdef";
    if (len == 0) putchar('-');
    for (size_t i = 0; i < len; i++) putchar(digits[room[i] / 16]), putchar(digits[room[i] % 16]);
    putchar('\n');
}

static void convert(size_t number, slice image, slice names, size_t room_len) {
    // a byte more, so that a room of no bytes has an address; and a length that no conversion tells
    uint8_t *room = must(malloc(room_len + 1));
    size_t length = SIZE_MAX;
    memset(room, FILLING, room_len);
    unsigned answer = aygeshunt_retire(image.at, image.len, names.at, names.len, room, room_len, &length);
    printf("%zu %u %zu ", number, answer, length);
    print_room(room, room_len);
    free(room);
}

// Makes the conversions up to the first fault of the file; whether there is none.
static bool convert_all(slice rest) {
    for (size_t number = 0; rest.len > 0; number++) {
        slice image, names;
        uint32_t room_len;
        if (!take_bytes(&rest, &image) || !take_bytes(&rest, &names) || !take_number(&rest, &room_len)) return false;
        convert(number, image, names, room_len);
    }
    return true;
}

// The whole file in storage that is longer than it, NULL where it cannot be read.
static uint8_t *read_file(const char *path, size_t *len) {
    FILE *file = fopen(path, "rb");
    if (!file) return NULL;
    size_t room = 1 << 20;
    uint8_t *bytes = must(malloc(room));
    for (*len = 0; (*len += fread(bytes + *len, 1, room - *len, file)) == room; room *= 2) bytes = must(realloc(bytes, 2 * room));
    bool is_whole = !ferror(file);
    fclose(file);
    if (is_whole) return bytes;
    free(bytes);
    return NULL;
}

int main(int argc, char **argv) {
    size_t len;
    if (argc != 2) return fputs("usage: convert FILE\n", stderr), 2;
    uint8_t *bytes = read_file(argv[1], &len);
    if (!bytes) return fprintf(stderr, "convert: %s cannot be read\n", argv[1]), 2;
    bool is_whole = convert_all((slice){bytes, len});
    free(bytes);
    if (!is_whole) fprintf(stderr, "convert: %s is broken\n", argv[1]);
    return fflush(stdout) == 0 && is_whole ? 0 : 2;
}
