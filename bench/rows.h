/* What a process of the bench prints: rows of fields with tabs between them, which medians.awk gathers from several
   processes. Titles, notes and names are the same in each of them. */
#ifndef ROWS_H
#define ROWS_H

/* What a row's last value has to be, or no mark. AHEAD names a row under the same title whose last value has to be the
   lower one. */
typedef struct {
    const char *kind, *limit;
} mark;

#define NO_MARK ((mark){ "", "" })
#define AT_MOST(limit) ((mark){ "at most", limit })
#define BELOW(limit) ((mark){ "below", limit })
#define AHEAD(row) ((mark){ "ahead", row })

/* A title stands above the notes and rows that follow it. */
__attribute__((format(printf, 1, 2))) void print_title(const char *format, ...);
__attribute__((format(printf, 1, 2))) void print_note(const char *format, ...);

/* A row is begun, gets its values, each with a format for one number of type double, and is ended. */
void begin_row(const char *name, mark asked);
void add_value(double value, const char *format);
void end_row(void);

#endif
