# Gathers the rows of several processes of the bench (rows.h), a file of each, in order of first appearance. A title or
# note that is the same in all of them is printed once. Of every value the median is printed, and the least and greatest
# in brackets; marks are judged on medians.
BEGIN { FS = "\t" }

FNR == 1 { processes++ }
$1 == "title" { title = $2; keep("title", title) }
$1 == "note" { keep("note", title FS $2) }
$1 == "row" { keep("row", title FS $2); add_row(title FS $2) }

END {
    printf "medians of %d processes [least to greatest]\n", processes
    for (i = 1; i <= count; i++) if (kind[i] == "row") lay_out(key[i])
    for (i = 1; i <= count; i++) show(i)
}

function keep(what, met) {
    if (met in name) return
    name[met] = $2
    kind[++count] = what
    key[count] = met
}

# The fields of a row: its name, its mark and the limit of that, then each value with its format.
function add_row(row,    cell) {
    title_of[row] = title
    mark[row] = $3
    limit[row] = $4
    cells[row] = (NF - 4) / 2
    times[row]++
    for (cell = 1; cell <= cells[row]; cell++) {
        value[row, cell, times[row]] = $(3 + 2 * cell) + 0
        format[row, cell] = $(4 + 2 * cell)
    }
}

# Leaves the values of a cell in sorted[1] to sorted[n], and returns n.
function sort_cell(row, cell,    i, j, v) {
    for (i = 1; i <= times[row]; i++) {
        v = value[row, cell, i]
        for (j = i; j > 1 && sorted[j - 1] > v; j--) sorted[j] = sorted[j - 1]
        sorted[j] = v
    }
    return times[row]
}

function median(row, cell,    n) {
    n = sort_cell(row, cell)
    return (sorted[int((n + 1) / 2)] + sorted[int(n / 2) + 1]) / 2
}

# The least and the greatest as the format has numbers, but of no fixed width; nothing if all values are the same.
function spread(row, cell,    n, number) {
    n = sort_cell(row, cell)
    if (sorted[1] == sorted[n]) return ""
    match(format[row, cell], /%[0-9]*\.[0-9]+f/)
    number = substr(format[row, cell], RSTART, RLENGTH)
    sub(/[0-9]*\./, ".", number)
    return sprintf(" [" number " to " number "]", sorted[1], sorted[n])
}

# Writes the cells of a row, and finds how wide the columns under its title have to be.
function lay_out(row,    cell) {
    shown[row, 0] = name[row]
    for (cell = 1; cell <= cells[row]; cell++)
        shown[row, cell] = sprintf(format[row, cell], median(row, cell)) spread(row, cell)
    for (cell = 0; cell <= cells[row]; cell++)
        if (length(shown[row, cell]) > width[title_of[row], cell]) width[title_of[row], cell] = length(shown[row, cell])
}

function show(i) {
    if (kind[i] == "title") print name[key[i]]
    if (kind[i] == "note") print "  " name[key[i]]
    if (kind[i] == "row") print row_line(key[i])
}

function row_line(row,    cell, line) {
    for (cell = 0; cell <= cells[row]; cell++)
        line = line sprintf("%-" (width[title_of[row], cell] + 3) "s", shown[row, cell])
    line = "  " line mark_text(row)
    sub(/ +$/, "", line)
    return line
}

# A mark is on the last value of a row. The limit of `ahead` is the name of a row under the same title.
function mark_text(row,    last) {
    last = median(row, cells[row])
    if (mark[row] == "at most") return judged("at most " limit[row], last <= limit[row] + 0)
    if (mark[row] == "below") return judged("below " limit[row], last < limit[row] + 0)
    if (mark[row] == "ahead") return judged(limit[row] " ahead", last_median(title_of[row] FS limit[row]) < last)
    return ""
}

function last_median(row) { return median(row, cells[row]) }

function judged(asked, is_reached) { return "mark: " asked ", " (is_reached ? "reached" : "missed") }
