/* The sheets that are measured, all of MAX_LINES lines and the same in every run; each number gives another sheet. */
#ifndef SHEETS_H
#define SHEETS_H

#include "sizes.h"

#include <stddef.h>
#include <stdint.h>

typedef struct {
    uint8_t text[MAX_BYTES];
    size_t len;
} sheet_text;

/* Half of the 256 items inserted, then 30 % insertions, 20 % takings, 40 % lowerings, 5 % deletions, 5 % shows. */
void make_busy_sheet(sheet_text *sheet, uint32_t number);

/* Half of the items inserted, then 30 % insertions, 30 % takings, 40 % lowerings; keys of one or two digits. */
void make_calls_sheet(sheet_text *sheet, uint32_t number);

/* The busy sheet with a raise of heap 0 on 10 % of the lines, instead of as many lowerings. */
void make_raises_sheet(sheet_text *sheet, uint32_t number);

/* Long numbers in and out and next to no work in the queue: one item of three digits is lowered to the key of ten
   digits that it has. */
void make_text_sheet(sheet_text *sheet, uint32_t number);

/* Lines of every kind, with every refusal and with zeros before numbers among them. */
void make_mixed_sheet(sheet_text *sheet, uint32_t number);

#endif
