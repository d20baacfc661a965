// The inner parts of the guard, proved, as the static library bench_calls exports them: a slice is a pointer and a length. The guard's own calls are those of guard.h.
#pragma once
#include <stdbool.h>
#include <stddef.h>
#include <stdint.h>

bool bench_name_valid(uint8_t form, const uint8_t *s, size_t n);
bool bench_signature_valid(const uint8_t *s, size_t n);
bool bench_utf8_valid(const uint8_t *s, size_t n);
uint8_t bench_header_read(const uint8_t *s, size_t n);
uint8_t bench_image_check(const uint8_t *image, size_t n);
bool bench_memory_good(const uint8_t *memory, size_t n);
uint64_t bench_decide(const uint8_t *image, size_t n, uint8_t direction, uint8_t kind, uint32_t uid, const uint32_t *gids, size_t gids_n,
                      const uint8_t *names, size_t names_n, const uint8_t *head, size_t head_n, const uint32_t *places);
