#!/usr/bin/env bash
# What booking and querying a cube cost, side by side: the proved program on both registers, plain Rust over the same two
# layouts, and SQLite in memory.
#
#   bench/cube.sh [PROGRAM]     crates/full_cube/out/full_cube, as `rt run` leaves it, or another build of it
#
# All work on the book that `full_cube book` writes, at two sizes, and must give the same figures for six questions. A booked
# entry is an average over the book, refused requests and the making of the register included; a query is the one over every
# entry. Of the proved program and of plain Rust each figure is the difference of two runs that book or query so often and
# twice as often, so that start-up falls out; SQLite's are taken by its script. Fails where figures differ, or where a query
# on the paged register takes more than three times as long as in plain Rust.
set -euo pipefail
cd "$(dirname "$0")/.."
program=${1:-crates/full_cube/out/full_cube}
work=$(mktemp -d)
trap 'rm -rf "$work"' EXIT
PATH=$PATH:${CARGO_HOME:-$HOME/.cargo}/bin
small=(3000 400)
large=(30000 4000)
most=3

# The nanoseconds of processor time of a run, the least of seven.
nanoseconds() { # PROGRAM ARGUMENT..
    local TIMEFORMAT='%U %S'
    for _ in {1..7}; do
        { time "$@" >/dev/null; } 2>&1
    done | awk '{ time = $1 + $2 } NR == 1 || time < least { least = time } END { printf "%d", 1e9 * least }'
}

# The instructions of a run, counted by callgrind: the same in every run.
instructions() { # PROGRAM ARGUMENT..
    valgrind --tool=callgrind --callgrind-out-file=/dev/null "$@" 2>&1 >/dev/null | awk '/Collected/ { print $NF }'
}

# What a run costs that books and queries so often.
run() { # MEASURE WHO KIND SIZE BOOKINGS QUERIES
    local -n entries_and_claims=$4
    case $2 in
    proved) "$1" "$program" "$3" "${entries_and_claims[@]}" "$5" "$6" ;;
    rust) "$1" "$work/cube" "$work/book.$4" "$3" "$5" "$6" ;;
    esac
}

# What one booked entry costs.
booking() { # MEASURE WHO KIND SIZE TIMES
    local -n entries_of=$4
    local once twice
    once=$(run "$1" "$2" "$3" "$4" "$5" 1)
    twice=$(run "$1" "$2" "$3" "$4" $((2 * $5)) 1)
    awk "BEGIN { printf \"%.1f\", ($twice - $once) / ($5 * $entries_of) }"
}

# What one query costs.
query() { # MEASURE WHO KIND SIZE TIMES
    local once twice
    once=$(run "$1" "$2" "$3" "$4" 1 "$5")
    twice=$(run "$1" "$2" "$3" "$4" 1 $((2 * $5)))
    awk "BEGIN { printf \"%.1f\", ($twice - $once) / $5 }"
}

# The figures of the six questions, of what a program printed.
figures() {
    sed -n '/^  known on .*, valued at /,/^    count/p'
}

# Holds the figures on standard input to those of the proved program on the paged register.
hold() { # NAME SIZE
    cmp -s - "$work/figures.$2" || { echo "$1 has other figures"; exit 1; }
}

# Writes the book of a size, and holds the figures of all to one another.
compare() { # SIZE ENTRIES CLAIMS
    "$program" book "$2" "$3" >"$work/book.$1"
    "$program" paged "$2" "$3" | figures >"$work/figures.$1"
    "$program" flat "$2" "$3" | figures | hold 'the flat log' "$1"
    "$work/cube" "$work/book.$1" paged 1 1 | figures | hold 'plain Rust, paged' "$1"
    "$work/cube" "$work/book.$1" flat 1 1 | figures | hold 'plain Rust, flat' "$1"
    python3 bench/cube_sqlite.py "$work/book.$1" 7 7 2>"$work/sqlite.$1" | hold SQLite "$1"
}

# A line of the table: a figure at both sizes, and how much larger the second is.
line() { # NAME FIGURE_SMALL FIGURE_LARGE
    awk "BEGIN { printf \"%-42s %14.1f %14.1f %8.2f\\n\", \"$1\", $2, $3, $3 / $2 }"
}

# Measures the proved program, plain Rust and how much the first is of the second. The times are how often the small and the
# large book are booked or queried.
measure() { # COST MEASURE KIND TIMES_SMALL TIMES_LARGE
    local proved_small proved_large rust_small rust_large
    proved_small=$($1 "$2" proved "$3" small "$4")
    rust_small=$($1 "$2" rust "$3" small "$4")
    proved_large=$($1 "$2" proved "$3" large "$5")
    rust_large=$($1 "$2" rust "$3" large "$5")
    line "$1, $3, $2: proved" "$proved_small" "$proved_large"
    line "$1, $3, $2: plain Rust" "$rust_small" "$rust_large"
    awk "BEGIN { printf \"%-42s %14.2f %14.2f\\n\", \"  proved / plain Rust\", $proved_small / $rust_small, $proved_large / $rust_large }"
    [[ $1 != query || $3 != paged ]] || awk "BEGIN { exit !($proved_large <= $most * $rust_large) }" || slow=yes
}

# A line of SQLite: WHICH is 1 for its bookings, 2 for its queries.
sqlite_line() { # COST WHICH
    line "$1, nanoseconds: SQLite" "$(cut -d ' ' -f "$2" "$work/sqlite.small")" "$(cut -d ' ' -f "$2" "$work/sqlite.large")"
}

slow=no
rustc -O --edition 2021 bench/cube.rs -o "$work/cube"
compare small "${small[@]}"
compare large "${large[@]}"
echo 'all figures are the same'
printf '%-42s %14s %14s %8s\n' '' "${small[0]}" "${large[0]}" ratio
measure booking instructions paged 10 5
measure booking nanoseconds paged 500 50
measure booking nanoseconds flat 50 1
sqlite_line booking 1
measure query instructions paged 10 5
measure query nanoseconds paged 4000 400
measure query nanoseconds flat 4000 400
sqlite_line query 2
[[ $slow = no ]] || { echo "a query on the paged register takes more than $most times plain Rust"; exit 1; }
