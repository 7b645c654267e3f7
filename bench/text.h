/* Reading and printing of sheets, for plain C and for the other heaps alike: C and C++. */
#ifndef TEXT_H
#define TEXT_H

#include "sizes.h"

#include <stddef.h>
#include <stdint.h>
#include <string.h>

enum { MAX_FIELDS = 3 };

typedef struct {
    uint32_t code, item, key, links, cuts;
} answer;

static inline answer done(uint32_t item, uint32_t key, uint32_t links, uint32_t cuts)
{
    answer a = { 0, item, key, links, cuts };
    return a;
}

static inline answer refused(uint32_t code)
{
    answer a = { code, 0, 0, 0, 0 };
    return a;
}

/* Reads the digits at p; returns the place after them, or NULL if they are no number. A sum that
   wraps has more than ten digits and is refused for that. */
static inline const uint8_t *read_number(const uint8_t *p, const uint8_t *end, uint32_t *number)
{
    const uint8_t *begin = p;
    uint64_t value = 0;
    for (uint32_t digit; p < end && (digit = *p - (uint32_t)'0') <= 9; p++)
        value = 10 * value + digit;
    size_t digits = (size_t)(p - begin);
    if (digits - 1 > 9 || value > UINT32_MAX)
        return NULL;
    *number = (uint32_t)value;
    return p;
}

/* Reads a comma and a number, count times, up to the end of the line. */
static inline const uint8_t *read_fields(const uint8_t *p, const uint8_t *end, int count, uint32_t *field)
{
    for (int i = 0; i < count; i++) {
        if (p == end || *p != ',')
            return NULL;
        p = read_number(p + 1, end, &field[i]);
        if (p == NULL)
            return NULL;
    }
    return p == end || *p == '\n' ? p : NULL;
}

/* How many numbers follow a letter; 0 for what begins no call. */
static inline int field_count(uint8_t letter)
{
    switch (letter) {
    case 'I':
        return 3;
    case 'D':
    case 'J':
    case 'A':
        return 2;
    case 'M':
    case 'T':
    case 'X':
        return 1;
    }
    return 0;
}

/* Reads the line at *p, which is not the sheet's end, and moves *p to the line's end: its letter, or 0 if no call. */
static inline uint8_t read_call(const uint8_t **p, const uint8_t *end, uint32_t field[MAX_FIELDS])
{
    const uint8_t *begin = *p;
    int count = field_count(*begin);
    const uint8_t *after = count == 0 ? NULL : read_fields(begin + 1, end, count, field);
    if (after != NULL) {
        *p = after;
        return *begin;
    }
    const uint8_t *line_end = (const uint8_t *)memchr(begin, '\n', (size_t)(end - begin));
    *p = line_end == NULL ? end : line_end;
    return 0;
}

static const char two_digits[] = "00010203040506070809101112131415161718192021222324"
                                 "25262728293031323334353637383940414243444546474849"
                                 "50515253545556575859606162636465666768697071727374"
                                 "75767778798081828384858687888990919293949596979899";

static inline int digit_count(uint32_t number)
{
    if (number < 100000)
        return number < 100 ? (number < 10 ? 1 : 2) : number < 1000 ? 3 : number < 10000 ? 4 : 5;
    if (number < 10000000)
        return number < 1000000 ? 6 : 7;
    return number < 100000000 ? 8 : number < 1000000000 ? 9 : 10;
}

static inline uint8_t *write_number(uint8_t *out, uint32_t number)
{
    if (number < 10) {
        *out = (uint8_t)('0' + number);
        return out + 1;
    }
    uint8_t *end = out + digit_count(number), *p = end;
    while (number >= 100) {
        p -= 2;
        memcpy(p, &two_digits[2 * (number % 100)], 2);
        number /= 100;
    }
    if (number >= 10)
        memcpy(p - 2, &two_digits[2 * number], 2);
    else
        p[-1] = (uint8_t)('0' + number);
    return end;
}

static inline uint8_t *write_field(uint8_t *out, uint32_t number, char after)
{
    out = write_number(out, number);
    *out = (uint8_t)after;
    return out + 1;
}

static inline uint8_t *write_answer(uint8_t *out, answer a)
{
    out = write_field(out, a.code, ',');
    out = write_field(out, a.item, ',');
    out = write_field(out, a.key, ',');
    out = write_field(out, a.links, ',');
    return write_field(out, a.cuts, '\n');
}

enum { PART = 255 };

/* The line feeds of at most PART bytes. A byte counts them, so that many bytes are compared at a time. */
static inline uint8_t line_feeds_in(const uint8_t *part, size_t len)
{
    uint8_t count = 0;
    for (size_t i = 0; i < len; i++)
        count = (uint8_t)(count + (part[i] == '\n'));
    return count;
}

static inline uint32_t count_lines(const uint8_t *sheet, size_t len)
{
    uint32_t lines = 0;
    size_t at = 0;
    for (; len - at > PART; at += PART)
        lines += line_feeds_in(sheet + at, PART);
    lines += line_feeds_in(sheet + at, len - at);
    return lines + (len > 0 && sheet[len - 1] != '\n');
}

/* The code that refuses a fresh run, or 0. */
static inline uint32_t run_fault(const uint8_t *sheet, size_t sheet_len, size_t out_len)
{
    if (sheet_len > MAX_BYTES)
        return 2;
    uint32_t lines = count_lines(sheet, sheet_len);
    if (lines > MAX_LINES)
        return 3;
    return out_len < (size_t)LINE_ROOM * lines ? 4 : 0;
}

#endif
