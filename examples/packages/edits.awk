# Turns what `apt-cache dumpavail` prints into an edit script, on standard output, and a list of names, in the file `names`.
#
# A vertex is a name, numbered from 0 in the order in which the text first has it; line K of the list has the name of
# vertex K - 1. An edge goes from a package to each name that it depends on, of `a | b` to the first. Version 1 has
# Depends and Pre-Depends, and is held by ticket 1; version 2 has Recommends too.

function number_of(name) {
    if (!(name in numbers)) {
        numbers[name] = count++
        print name > names
    }
    return numbers[name]
}

# Adds a line `add` for each clause of a field to the edits of a version.
function add_edges(version, field,    clauses, words, place, last) {
    last = split(field, clauses, ",")
    for (place = 1; place <= last; place++) {
        split(clauses[place], words, /[ |(:[]+/)
        name = words[1] == "" ? words[2] : words[1]
        if (name != "")
            edges[version, sizes[version]++] = "add " package " " number_of(name)
    }
}

function print_edges(version,    place) {
    for (place = 0; place < sizes[version]; place++)
        print edges[version, place]
    print "commit"
}

$1 == "Package:" { package = number_of($2) }
$1 == "Depends:" || $1 == "Pre-Depends:" { sub(/^[^:]*:/, ""); add_edges(1, $0) }
$1 == "Recommends:" { sub(/^[^:]*:/, ""); add_edges(2, $0) }

END {
    print "vertices " (count ? count : 1)
    print_edges(1)
    print "hold"
    print_edges(2)
}
