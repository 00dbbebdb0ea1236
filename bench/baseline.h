/*
 * The library of ../include/govorun.h written again in plain C, with nothing proved, to measure the proved one against.
 * Answers, refusals and what is asked of the caller are those of that header.
 */
#ifndef BASELINE_H
#define BASELINE_H

#include <stdbool.h>
#include <stddef.h>
#include <stdint.h>

typedef struct {
    uint32_t number, place, length, live;
} baseline_answer;

typedef struct {
    uint32_t number, place, codes, names;
} baseline_counts;

typedef struct {
    uint32_t number;
    size_t place, length;
} baseline_text;

typedef struct {
    uint32_t number;
    size_t place, used;
} baseline_added;

typedef struct {
    uint32_t number;
    size_t place;
    uint32_t found;
    size_t start, length;
} baseline_found;

baseline_counts baseline_check(const uint8_t *msg, size_t len);
baseline_answer baseline_name(const uint8_t *msg, size_t len, uint8_t *out, size_t cap);
baseline_answer baseline_transcribe(bool newer, const uint8_t *msg, size_t len, uint8_t *out,
                                    size_t cap);
baseline_answer baseline_join(bool newer, const uint8_t *msg, size_t len, const size_t *cuts,
                              size_t n, uint8_t *out, size_t cap);
baseline_text baseline_edit(const uint8_t *text, size_t len, uint8_t *out, size_t cap);
baseline_text baseline_read_utf8(const uint8_t *text, size_t len, uint8_t *out, size_t cap);
baseline_answer baseline_write_utf8(const uint8_t *msg, size_t len, uint8_t *out, size_t cap);
baseline_answer baseline_speak_level(int32_t level, uint8_t *out, size_t cap);
baseline_added baseline_book_add(uint32_t listener, bool newer, uint8_t *book, size_t size,
                                 size_t used, uint16_t phrase, uint8_t set, const uint8_t *msg,
                                 size_t len);
baseline_found baseline_book_find(uint32_t listener, const uint8_t *book, size_t size, size_t used, uint16_t phrase);

#endif
