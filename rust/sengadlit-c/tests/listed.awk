# The header's list of what each hook reads and writes, as rows of C for reads_and_writes.c. A row may go on in a line that
# begins with an arrow.
function print_row(row, of, reads, writes, words) {
    split(row, words, " ")
    of = words[2]
    sub(/:$/, "", of)
    reads = writes = row
    sub(/^[^:]*: /, "", reads)
    sub(/ *->.*/, "", reads)
    sub(/.*-> /, "", writes)
    printf "ROW(\"%s\", \"%s\", \"%s\", \"%s\")\n", words[1], of, reads, writes
}

begun != "" && /^       -> / { print_row(begun $0) }
{ begun = "" }
/^   [a-z_]+ [A-Z_]+(\(joins\))?: .* -> / { print_row($0) }
/^   [a-z_]+ [A-Z_]+(\(joins\))?: / && !/->/ { begun = $0 }
