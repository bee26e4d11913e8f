#!/bin/sh
# Measures: `bench/measure.sh NAME..` builds each of these programs of bench/programs, runs it, and prints a table of its figures.
# bench/README.md says what they measure.
#
# A program is copied to a temporary folder, where `tools/build --program` proves it on this repository's own crates, which it names in its
# file `uses`, and builds it as `./cilvm --prove` builds cilvm. So the figures are of the shipped code, and no crate of the
# repository exists only for them. Crates that `./cilvm --prove` has proved are not proved again. The program's files end in `.txt` here,
# since the gate asks that every source belongs to a crate.
#
# A program prints lines `NAME: FIGURE UNIT (WHAT WAS DONE)`; the last part is optional.
#
# Some programs have a `baseline.rs`, a program in plain Rust that does the same and prints the same lines. It is built by `rustc -O`, and
# both run alternately, five times each, so that other work on the machine slows both alike. The table has the best figure for each
# name, and the ratio of the speeds, ours by the baseline's. What was done has to be the same in all lines with the same name. A program
# without a baseline runs once.
set -eu
: "${1:?usage: bench/measure.sh NAME.., folders of bench/programs}"
top=$(cd "$(dirname "$0")/.." && pwd)
work=$(mktemp -d)
trap 'rm -rf "$work"' EXIT

# Builds the program of a folder and runs it, with its baseline if it has one. Their lines are in `ours` and `theirs`.
run() {
    rm -rf "$work/measured"
    cp -r "$1" "$work/measured"
    find "$work/measured" -name '*.txt' | while read -r file; do mv "$file" "${file%.txt}"; done
    rm -f "$work/measured/baseline.rs"
    "$top/tools/build" --program "$work/measured" "$work/program" 2> "$work/log" || { cat "$work/log" >&2; exit 1; }
    "$work/program" > "$work/ours" < /dev/null
    : > "$work/theirs"
    if [ -f "$1/baseline.rs" ]; then
        rustc -O --edition 2024 -o "$work/baseline" "$1/baseline.rs"
        : > "$work/ours"
        for round in 1 2 3 4 5; do
            "$work/program" >> "$work/ours" < /dev/null
            "$work/baseline" >> "$work/theirs"
        done
    fi
}

# Prints the rows of a program from the lines in `ours` and `theirs`.
print_rows() {
    awk '
        # The better of two figures, the first of which may be missing.
        function better(first, second, is_time) {
            if (first == "") return second
            return (is_time ? second + 0 < first + 0 : second + 0 > first + 0) ? second : first
        }
        {
            colon = index($0, ": ")
            name = substr($0, 1, colon - 1)
            rest = substr($0, colon + 2)
            space = index(rest, " ")
            figure = substr(rest, 1, space - 1)
            rest_of_line = substr(rest, space + 1)
            if (!colon || figure !~ /^[0-9]+(\.[0-9]+)?$/) {
                print "  " $0
                is_bad = 1
                next
            }
            if (!(name in done)) { names[++count] = name; done[name] = rest_of_line }
            if (done[name] != rest_of_line) { print "  " name ": " done[name] ", and " rest_of_line; is_bad = 1 }
            is_time[name] = rest_of_line ~ /^(micro|milli)seconds/
            if (FILENAME ~ /ours$/) ours[name] = better(ours[name], figure, is_time[name])
            else theirs[name] = better(theirs[name], figure, is_time[name])
        }
        END {
            for (i = 1; i <= count; i++) {
                name = names[i]
                ratio = "-"
                if (name in ours && name in theirs) {
                    quotient = is_time[name] ? theirs[name] / ours[name] : ours[name] / theirs[name]
                    ratio = sprintf("%.2f", quotient)
                }
                baseline = name in theirs ? theirs[name] : "-"
                printf "  %-38s %9s %9s %6s  %s\n", name, ours[name], baseline, ratio, done[name]
            }
            exit is_bad
        }
    ' "$work/ours" "$work/theirs"
}

printf "%-40s %9s %9s %6s\n" "" ours baseline ratio
for name in "$@"; do
    run "$top/bench/programs/$name"
    echo "$name"
    print_rows
done
