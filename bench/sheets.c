#include "sheets.h"

#include "measure.h"

#include <stdarg.h>
#include <stdbool.h>
#include <stdio.h>

static void add_line(sheet_text *sheet, const char *format, ...)
{
    va_list arguments;
    va_start(arguments, format);
    size_t room = sizeof sheet->text - sheet->len;
    int length = vsnprintf((char *)sheet->text + sheet->len, room, format, arguments);
    va_end(arguments);
    if (length < 0 || (size_t)length >= room)
        fail("a sheet is too long", "sheets");
    sheet->len += (size_t)length;
}

/* What is in heap 0 while a sheet is made, so that every line of it is a call that is done. */

static bool held[MODEM_ITEMS];
static uint32_t keys[MODEM_ITEMS], held_count;

static uint32_t draw_item(bool is_held)
{
    uint32_t item;
    do
        item = draw(MODEM_ITEMS);
    while (held[item] != is_held);
    return item;
}

static uint32_t first_item(void)
{
    uint32_t first = MODEM_ITEMS;
    for (uint32_t item = 0; item < MODEM_ITEMS; item++)
        if (held[item] && (first == MODEM_ITEMS || keys[item] < keys[first]))
            first = item;
    return first;
}

static void hold(uint32_t item, uint32_t key)
{
    held[item] = true;
    keys[item] = key;
    held_count++;
}

static void let_go(uint32_t item)
{
    held[item] = false;
    held_count--;
}

/* Parts of a hundred, one after the other; what is left are shows. */
typedef struct {
    uint32_t insertions, takings, lowerings, deletions, raises, key_limit;
} mix;

/* So small that no sum of them and a key passes the largest number. */
enum { RAISE_LIMIT = 1000000 };

static void add_insertion(sheet_text *sheet, const mix *m)
{
    uint32_t item = draw_item(false);
    hold(item, draw(m->key_limit));
    add_line(sheet, "I,0,%u,%u\n", item, keys[item]);
}

static void add_taking(sheet_text *sheet)
{
    let_go(first_item());
    add_line(sheet, "T,0\n");
}

static void add_lowering(sheet_text *sheet)
{
    uint32_t item = draw_item(true);
    keys[item] -= draw(keys[item] / 4 + 1);
    add_line(sheet, "D,%u,%u\n", item, keys[item]);
}

static void add_deletion(sheet_text *sheet)
{
    uint32_t item = draw_item(true);
    let_go(item);
    add_line(sheet, "X,%u\n", item);
}

static void add_raise(sheet_text *sheet)
{
    uint32_t by = draw(RAISE_LIMIT);
    for (uint32_t item = 0; item < MODEM_ITEMS; item++)
        keys[item] += by;
    add_line(sheet, "A,0,%u\n", by);
}

static void add_call(sheet_text *sheet, const mix *m)
{
    uint32_t kind = draw(100), takings = m->insertions + m->takings, lowerings = takings + m->lowerings;
    uint32_t deletions = lowerings + m->deletions;
    if (held_count == 0 || (kind < m->insertions && held_count < MODEM_ITEMS))
        add_insertion(sheet, m);
    else if (kind < takings)
        add_taking(sheet);
    else if (kind < lowerings)
        add_lowering(sheet);
    else if (kind < deletions)
        add_deletion(sheet);
    else if (kind < deletions + m->raises)
        add_raise(sheet);
    else
        add_line(sheet, "M,0\n");
}

static void make_sheet(sheet_text *sheet, uint32_t number, const mix *m)
{
    sheet->len = 0;
    held_count = 0;
    for (uint32_t item = 0; item < MODEM_ITEMS; item++)
        held[item] = false;
    start_draws(20 + number);
    for (int line = 0; line < MODEM_ITEMS / 2; line++)
        add_insertion(sheet, m);
    for (int line = MODEM_ITEMS / 2; line < MAX_LINES; line++)
        add_call(sheet, m);
}

void make_busy_sheet(sheet_text *sheet, uint32_t number)
{
    make_sheet(sheet, number, &(mix){ 30, 20, 40, 5, 0, 1000000000 });
}

void make_calls_sheet(sheet_text *sheet, uint32_t number)
{
    make_sheet(sheet, number, &(mix){ 30, 30, 40, 0, 0, 100 });
}

void make_raises_sheet(sheet_text *sheet, uint32_t number)
{
    make_sheet(sheet, number, &(mix){ 30, 20, 30, 5, 10, 1000000000 });
}

void make_text_sheet(sheet_text *sheet, uint32_t number)
{
    start_draws(20 + number);
    uint32_t item = 100 + draw(MODEM_ITEMS - 100), key = 1000000000 + draw(3294967296);
    sheet->len = 0;
    add_line(sheet, "I,0,%u,%u\n", item, key);
    for (int line = 1; line < MAX_LINES; line++)
        add_line(sheet, "D,%u,%u\n", item, key);
}

static void add_mixed_line(sheet_text *sheet)
{
    static const char *const no_calls[] = { "", "I,0,1", "T,-7", "D,1,4294967296", "X,1,", "A,1", "M,0\r" };
    static const uint32_t raises[] = { 0, 1, 50, 1000, 4294967195, 4294967294, 4294967295 };
    uint32_t heap = draw(9), item = draw(260), key = draw(100);
    int digits = draw(4) == 0 ? 1 + (int)draw(11) : 1; /* with zeros before shorter numbers; eleven make no call */
    switch (draw(9)) {
    case 0:
        add_line(sheet, "%s\n", no_calls[draw(7)]);
        break;
    case 1:
        add_line(sheet, "M,%0*u\n", digits, heap);
        break;
    case 2:
        add_line(sheet, "T,%0*u\n", digits, heap);
        break;
    case 3:
        add_line(sheet, "X,%0*u\n", digits, item);
        break;
    case 4:
        add_line(sheet, "J,%0*u,%u\n", digits, heap, draw(9));
        break;
    case 5:
        add_line(sheet, "D,%u,%0*u\n", item, digits, key / 2);
        break;
    case 6:
        add_line(sheet, "A,%u,%0*u\n", heap, digits, raises[draw(7)]);
        break;
    default:
        add_line(sheet, "I,%u,%0*u,%0*u\n", heap, digits, item, digits, key);
    }
}

void make_mixed_sheet(sheet_text *sheet, uint32_t number)
{
    sheet->len = 0;
    start_draws(number);
    for (int line = 0; line < MAX_LINES; line++)
        add_mixed_line(sheet);
}
