#!/bin/sh
# A campaign of one's own: it flips one bit of one claim at a time, for each bit of each field of the first claim of each cycle from FIRST to LAST,
# runs an image with each of these flips, and then shows what became of the runs. `diva campaign` does so for the core `lockstep` and the first 32
# cycles; this is for any core, any numbers of the machine and any cycles.
#
# usage: examples/campaign.sh runs IMAGE FIRST LAST [OPTION..] > LINES     the options are those of `diva run` but for --script
#        examples/campaign.sh table [LINES..]
#
# `runs` writes a line for each run: `CYCLE FIELD BIT FLUSHES SILENT`, and then `same` or `other`: whether its lines of end, count, output, registers
# and pc are those of the run without a flip. The lines come in the order in which the runs end. `table` counts such lines, and shows field by bit
# in how many of the runs the checker flushed.
#
# On one machine as many runs go at a time as it has processors, or as JOBS says. They have nothing in common, so on many machines each takes some
# of the cycles, as a Slurm array job in which each task has four of a thousand:
#
#     mkdir -p lines
#     sbatch --array=0-249 --wrap 'n=$((4 * SLURM_ARRAY_TASK_ID))
#         examples/campaign.sh runs p1.diva $((n + 1)) $((n + 4)) --core scalar > lines/$n'
#
# and when all are done, `examples/campaign.sh table lines/*`. PROGRAM names the program, ./diva by default. The launcher of that name sees first
# whether its sources have changed; crates/diva/out/diva, which ./prove leaves, is the program itself.
set -u
: "${PROGRAM:=./diva}" "${JOBS:=$(getconf _NPROCESSORS_ONLN 2>/dev/null || echo 1)}"
export PROGRAM

# The lines of end, count, output, registers and pc of a run's text.
left() {
    sed -e '/^flush/d' -e '/^cycles /d'
}

# Runs an image with one flip: its row as `CYCLE FIELD BIT`, a folder, the image, and the options.
one() {
    row=$1 room=$2 image=$3
    shift 3
    script=$room/$$.script text=$room/$$.text
    echo "$row" | awk '{ print "at " $1 " lane 0 flip " $2 " " $3 }' >"$script"
    "$PROGRAM" run "$image" --script "$script" "$@" >"$text"
    left <"$text" | cmp -s - "$room/first" && same=same || same=other
    echo "$row $(sed -n 's/^flushes \([0-9]*\) silent \([0-9]*\)$/\1 \2/p' "$text") $same"
    rm "$script" "$text"
}

# Runs an image without a flip, and then with each: the image, the first and the last cycle, and the options.
runs() {
    image=$1 first=$2 last=$3
    shift 3
    room=$(mktemp -d) || exit 1
    trap 'rm -r "$room"' EXIT
    trap 'exit 1' HUP INT TERM
    "$PROGRAM" run "$image" "$@" >"$room/whole"
    if ! grep -q '^count ' "$room/whole"; then
        cat "$room/whole" >&2
        exit 1
    fi
    left <"$room/whole" >"$room/first"
    awk -v first="$first" -v last="$last" 'BEGIN {
        fields = split("pc word src1 src2 addr value next end", field)
        for (cycle = first; cycle <= last; cycle++)
            for (n = 1; n <= fields; n++)
                for (bit = 0; bit < 32; bit++) print cycle, field[n], bit
    }' | xargs -P "$JOBS" -I '{}' sh "$0" one '{}' "$room" "$image" "$@"
}

# The table of the lines that runs have written.
table() {
    cat -- "$@" | awk '
    { runs++; flushed[$2, $3] += $4 > 0; with_flush += $4 > 0; silent += $5 > 0; same += $6 == "same" }
    END {
        fields = split("pc word src1 src2 addr value next end", field)
        width = length(int(runs / 256) "") + 1
        cell = "%" (width < 3 ? 3 : width) "d"
        printf "%-5s", "bit"
        for (bit = 0; bit < 32; bit++) printf cell, bit
        printf "\n"
        for (n = 1; n <= fields; n++) {
            printf "%-5s", field[n]
            for (bit = 0; bit < 32; bit++) printf cell, flushed[field[n], bit]
            printf "\n"
        }
        printf "runs %d\nsame %d\nflushed %d\nsilent %d\n", runs, same, with_flush, silent
    }'
}

usage() {
    sed -n 's/^# usage: /usage: /p' "$0" >&2
    exit 2
}

# Refuses words that are no cycle: a number of ten digits at most, the first of which is no 0.
each_is_a_cycle() {
    for cycle; do
        case $cycle in
        '' | 0* | *[!0-9]* | ???????????*) usage ;;
        esac
    done
}

case ${1-} in
runs)
    [ $# -ge 4 ] || usage
    each_is_a_cycle "$3" "$4"
    ;;
table | one) ;;
*) usage ;;
esac
"$@"
