/* queue_run through the C header: the worked sheet, every refusal at its limit, output beyond untouched. */
#include "cable_queue.h"
#include "check.h"

#define LINES 2000
#define ROOM (32 * LINES)
#define LARGEST_SHEET 60000

static uint8_t sheet[LARGEST_SHEET + 1];
static uint8_t out[ROOM + 1];

/* Every byte of out from a place on is still '#'. */
static int untouched(size_t from) {
    for (size_t i = from; i < sizeof out; i++)
        if (out[i] != '#') return 0;
    return 1;
}

/* Fills out with '#', runs the first bytes of `sheet` on the first bytes of `out`. */
static uint32_t run(size_t sheet_len, size_t out_len) {
    memset(out, '#', sizeof out);
    return queue_run(sheet, sheet_len, out, out_len);
}

static uint32_t run_text(const char *text, size_t out_len) {
    memcpy(sheet, text, strlen(text));
    return run(strlen(text), out_len);
}

static int answered(const char *answers, uint32_t result) {
    size_t n = strlen(answers);
    return result == n && memcmp(out, answers, n) == 0 && untouched(n);
}

int main(void) {
    expect("the worked sheet", answered(worked_answers, run_text(worked_sheet, ROOM)));
    expect("a second run starts from an empty store", answered(worked_answers, run_text(worked_sheet, ROOM)));
    expect("the worked sheet with just enough room", answered(worked_answers, run_text(worked_sheet, 8 * 32)));
    expect("one byte of room too few: 4", run_text(worked_sheet, 8 * 32 - 1) == CABLE_QUEUE_REFUSED + 4 && untouched(0));

    expect("an empty sheet", answered("", run_text("", ROOM)));
    expect("an empty sheet and no room", answered("", run_text("", 0)));
    expect("a last line without LF counts", answered("12,0,0,0,0\n", run_text("M,0", 32)));
    expect("a last line without LF needs room", run_text("M,0", 31) == CABLE_QUEUE_REFUSED + 4 && untouched(0));
    expect("item 255 is there, 256 is not", answered("0,255,7,0,0\n8,0,0,0,0\n", run_text("I,7,255,7\nX,256\n", 64)));

    expect("zeros before numbers", answered("0,255,7,0,0\n0,255,7,0,0\n6,0,0,0,0\n",
                                            run_text("I,07,0000000255,007\nT,07\nT,00000000007\n", 96)));

    expect("bytes beside the digits", answered("6,0,0,0,0\n6,0,0,0,0\n6,0,0,0,0\n0,255,7,0,0\n",
                                               run_text("T,:\nT,0/\nI,7,255,7:\nI,7,255,7\n", 4 * 32)));

    expect("raises", answered("0,255,7,0,0\n0,7,1,0,0\n0,255,4294967295,0,0\n25,0,0,0,0\n0,255,4294967295,0,0\n",
                              run_text("I,7,255,7\nA,7,4294967288\nM,7\nA,7,1\nT,7\n", 5 * 32)));
    expect("a raise of an empty heap", answered("0,7,0,0,0\n", run_text("A,7,4294967295\n", 32)));
    expect("raises that are no calls or name no heap",
           answered("6,0,0,0,0\n6,0,0,0,0\n6,0,0,0,0\n7,0,0,0,0\n", run_text("A,0\nA,0,1,2\nA,,1\nA,8,0\n", 4 * 32)));

    memset(sheet, '\n', sizeof sheet);
    uint32_t n = run(LINES, ROOM);
    expect("2,000 lines", n == LINES * strlen("6,0,0,0,0\n") && untouched(n));
    expect("2,001 lines: 3", run(LINES + 1, sizeof out) == CABLE_QUEUE_REFUSED + 3 && untouched(0));
    expect("2,001 lines and no room: 3 before 4", run(LINES + 1, 0) == CABLE_QUEUE_REFUSED + 3 && untouched(0));
    expect("60,001 bytes: 2 before 3", run(LARGEST_SHEET + 1, ROOM) == CABLE_QUEUE_REFUSED + 2 && untouched(0));
    expect("60,000 bytes: 3", run(LARGEST_SHEET, ROOM) == CABLE_QUEUE_REFUSED + 3 && untouched(0));

    memset(sheet, 'M', sizeof sheet);
    expect("60,000 bytes in one line", answered("6,0,0,0,0\n", run(LARGEST_SHEET, 32)));
    expect("60,001 bytes in one line: 2", run(LARGEST_SHEET + 1, 32) == CABLE_QUEUE_REFUSED + 2 && untouched(0));

    return finish("modem");
}
