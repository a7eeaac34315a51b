#!/usr/bin/env bash
# What an adding and a step of a walk cost on each register, at two sizes of the book.
#
#   bench/registers.sh [PROGRAM]     crates/full_size/out/full_size, as `rt run` leaves it, or another build of it
#
# A step is one call for the next entry of a claim; a walk over every claim takes a step for each entry, and one for each
# claim that finds no more. Each figure is the difference of two runs that differ only in how often they walk, or book:
# what start-up, the making of the book and printing cost falls out. From the addings, the cost of making the register
# falls out by the same difference with a book of no entries. Fails where an adding or a step on the paged register takes
# more than a twentieth more instructions in the large book than in the small one.
set -euo pipefail
cd "$(dirname "$0")/.."
program=${1:-crates/full_size/out/full_size}
small=(3000 400)
large=(30000 4000)

# The instructions of a run, counted by callgrind: the same in every run.
instructions() { # ARGUMENT..
    valgrind --tool=callgrind --callgrind-out-file=/dev/null "$program" "$@" 2>&1 >/dev/null | awk '/Collected/ { print $NF }'
}

# The nanoseconds of a run, the least of seven.
nanoseconds() { # ARGUMENT..
    local least='' start time
    for _ in 1 2 3 4 5 6 7; do
        start=$(date +%s%N)
        "$program" "$@" >/dev/null
        time=$(($(date +%s%N) - start))
        [[ -n $least && $least -le $time ]] || least=$time
    done
    echo "$least"
}

# One step of a walk, by the difference of TIMES and twice TIMES walks.
step() { # MEASURE KIND ENTRIES CLAIMS TIMES
    local once twice
    once=$($1 "$2" "$3" "$4" "$5" 0 1)
    twice=$($1 "$2" "$3" "$4" $(($5 * 2)) 0 1)
    awk "BEGIN { printf \"%.1f\", ($twice - $once) / ($5 * ($3 + $4)) }"
}

# One adding, by the difference of TIMES and twice TIMES bookings of the book, and of an empty one.
adding() { # MEASURE KIND ENTRIES CLAIMS TIMES
    local once twice empty_once empty_twice
    once=$($1 "$2" "$3" "$4" 0 0 "$5")
    twice=$($1 "$2" "$3" "$4" 0 0 $(($5 * 2)))
    empty_once=$($1 "$2" 0 "$4" 0 0 "$5")
    empty_twice=$($1 "$2" 0 "$4" 0 0 $(($5 * 2)))
    awk "BEGIN { printf \"%.1f\", (($twice - $once) - ($empty_twice - $empty_once)) / ($5 * $3) }"
}

# A line of the table: a figure at both sizes, and how much larger the second is.
line() { # NAME FIGURE_SMALL FIGURE_LARGE
    awk "BEGIN { printf \"%-42s %12s %12s %8.2f\\n\", \"$1\", \"$2\", \"$3\", $3 / $2 }"
}

# Measures one kind of cost on one register at both sizes. The times are how often the small and the large book are gone
# through.
measure() { # COST UNIT KIND TIMES_SMALL TIMES_LARGE
    local first second
    first=$($1 "$2" "$3" "${small[@]}" "$4")
    second=$($1 "$2" "$3" "${large[@]}" "$5")
    line "$3: one $1, $2" "$first" "$second"
    if [[ $2 = instructions && $3 = paged ]]; then
        awk "BEGIN { exit !($second <= 1.05 * $first) }" || grows=yes
    fi
}

grows=no
printf '%-42s %12s %12s %8s\n' '' "${small[0]}" "${large[0]}" ratio
measure adding instructions paged 10 10
measure step instructions paged 10 10
measure adding instructions flat 10 10
measure step instructions flat 10 1
measure adding nanoseconds paged 2000 200
measure step nanoseconds paged 5000 500
measure adding nanoseconds flat 2000 200
measure step nanoseconds flat 200 4
[[ $grows = no ]] || { echo 'the cost on the paged register grows with the book'; exit 1; }
