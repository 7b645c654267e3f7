#include "rows.h"

#include <stdarg.h>
#include <stdio.h>

static void print_text(const char *kind, const char *format, va_list arguments)
{
    printf("%s\t", kind);
    vprintf(format, arguments);
    printf("\n");
}

void print_title(const char *format, ...)
{
    va_list arguments;
    va_start(arguments, format);
    print_text("title", format, arguments);
    va_end(arguments);
}

void print_note(const char *format, ...)
{
    va_list arguments;
    va_start(arguments, format);
    print_text("note", format, arguments);
    va_end(arguments);
}

void begin_row(const char *name, mark asked) { printf("row\t%s\t%s\t%s", name, asked.kind, asked.limit); }
void add_value(double value, const char *format) { printf("\t%.9g\t%s", value, format); }
void end_row(void) { printf("\n"); }
