/* Cuts a recorded stream of messages into one file for each message. */
#include "record.h"

static size_t number(const unsigned char *at, int big)
{
    return big ? (size_t) at[0] << 24 | (size_t) at[1] << 16 | (size_t) at[2] << 8 | at[3]
               : (size_t) at[3] << 24 | (size_t) at[2] << 16 | (size_t) at[1] << 8 | at[0];
}

int main(int count, char **arguments)
{
    static unsigned char bytes[1 << 20];
    static const char *kinds[] = { "call", "return", "error", "signal" };
    size_t length, fields, message, at = 0;
    FILE *file;
    char name[64];
    int index;

    if (count != 3 || (file = fopen(arguments[1], "rb")) == NULL)
        die("usage: split STREAM FOLDER");
    record_folder = arguments[2];
    length = fread(bytes, 1, sizeof bytes, file);
    fclose(file);
    for (index = 1; at + 16 <= length; index++) {
        int big = bytes[at] == 'B';

        fields = number(bytes + at + 12, big);
        message = 16 + (fields + 7) / 8 * 8 + number(bytes + at + 4, big);
        if (message > length - at)
            break;
        snprintf(name, sizeof name, "%03d-%s", index, kinds[(bytes[at + 1] - 1) & 3]);
        save(name, bytes + at, message);
        at += message;
    }
    return 0;
}
