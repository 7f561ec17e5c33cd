# Prints the names of the vertices that each run has reached, but the package itself. The first file is the list of names,
# the second the replies.
FNR == NR { names[NR - 1] = $0; next }
$1 == "vector" && $2 == "reached:" {
    lines = ""
    count = 0
    for (field = 3; field <= NF; field++)
        if ($field == 1 && names[field - 3] != package) {
            lines = lines "  " names[field - 3] "\n"
            count++
        }
    runs++
    printf "%s %s %d:\n%s", package, runs == 1 ? "depends on" : "depends on or recommends", count, lines
}
