// Conversions of images with rooms of several lengths, everything that they are lent in each placement: what is written, and what is left alone.
#pragma once
#include "lent.h"

// The longest image, and so the longest room that a conversion can fill.
enum { LONGEST_IMAGE = 65536 };

// The conversion is done where there is room for the result, and 53 in each room that is shorter.
void converts(const char *name, slice image, slice names, slice result);

// It is refused with this answer, whatever the room.
void refuses(const char *name, slice image, slice names, uint8_t answer);

// One call with a room of that length, in each placement; a refusal has no result.
void convert_in(const char *name, slice image, slice names, size_t room_len, uint8_t answer, slice result);
