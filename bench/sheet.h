/* The run of a sheet over QUEUE, which has the seven calls by now. Included once for each kind of queue. */

static inline answer answer_line(QUEUE *queue, const uint8_t **p, const uint8_t *end)
{
    uint32_t field[MAX_FIELDS];
    switch (read_call(p, end, field)) {
    case 'I':
        return call_insert(queue, field[0], field[1], field[2]);
    case 'M':
        return call_find_min(queue, field[0]);
    case 'T':
        return call_extract_min(queue, field[0]);
    case 'D':
        return call_decrease_key(queue, field[0], field[1]);
    case 'X':
        return call_delete(queue, field[0]);
    case 'J':
        return call_meld(queue, field[0], field[1]);
    case 'A':
        return call_raise(queue, field[0], field[1]);
    }
    return refused(6);
}

/* Answers every line; returns the bytes written. */
static inline uint32_t run_lines(QUEUE *queue, const uint8_t *sheet, size_t sheet_len, uint8_t *out)
{
    const uint8_t *p = sheet, *end = sheet + sheet_len;
    uint8_t *written = out;
    while (p < end) {
        written = write_answer(written, answer_line(queue, &p, end));
        p++;
    }
    return (uint32_t)(written - out);
}

#undef QUEUE
