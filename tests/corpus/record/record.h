/* Saving marshalled messages as files, for the recording programs. */
#ifndef RECORD_H
#define RECORD_H

#include <stdio.h>
#include <stdlib.h>
#include <string.h>

static const char *record_folder = ".";

static void die(const char *what)
{
    fprintf(stderr, "record: %s\n", what);
    exit(1);
}

/* Writes one message to FOLDER/NAME.msg. */
static void save(const char *name, const void *bytes, size_t length)
{
    char path[4096];
    FILE *file;

    snprintf(path, sizeof path, "%s/%s.msg", record_folder, name);
    file = fopen(path, "wb");
    if (file == NULL || fwrite(bytes, 1, length, file) != length || fclose(file) != 0)
        die(path);
}

/* A name that begins with START and has LENGTH bytes; the caller frees it. */
static inline char *long_name(const char *start, size_t length)
{
    char *name = malloc(length + 1);

    if (name == NULL)
        die("memory");
    memset(name, 'x', length);
    memcpy(name, start, strlen(start));
    name[length] = 0;
    return name;
}

#endif
