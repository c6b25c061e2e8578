#!/bin/sh
# Cycles against the rate of faults: images run under scripts that spoil a claim, or hush the core, once in every PERIOD cycles, and without one.
#
# usage: examples/figures/cost.sh CORE WIDTH PORT IMAGE..
#
# A row is `KIND,CORE,WIDTH,PORT,PERIOD,PROGRAMS,COUNT,FLUSHES,CYCLES,WITHOUT,RATIO`: the kind `flip` inverts a bit of the value of the first claim,
# if there is one in that cycle; `hush` keeps back all claims of 70 cycles, which is longer than the watchdog waits. Of each PERIOD cycles the one in
# which it comes is drawn, by numbers that the place of the image gives. COUNT, FLUSHES and CYCLES are sums over all images, WITHOUT is that of their
# cycles without a script, and RATIO is CYCLES / WITHOUT. A script has 4,096 rows at most. A period is left out if they end before a run does.
set -u
: "${PROGRAM:=./diva_lab}"
[ $# -ge 4 ] || { sed -n 's/^# usage: /usage: /p' "$0" >&2; exit 2; }
core=$1 width=$2 port=$3
shift 3
room=$(mktemp -d) || exit 1
trap 'rm -r "$room"' EXIT
trap 'exit 1' HUP INT TERM

# The count, the flushes and the cycles of a run of an image, with further options.
numbers() {
    "$PROGRAM" run "$@" --core "$core" --width "$width" --port "$port" --room 65536 | awk '
        $1 == "count" { count = $2 }
        $1 == "cycles" { cycles = $2 }
        $1 == "flushes" { flushes = $2 }
        END { print count, flushes, cycles }'
}

# A script of 4,096 rows: what is done to the claims, the period, and the number of the image.
script() {
    awk -v what="$1" -v period="$2" -v state="$3" 'BEGIN {
        for (row = 0; row < 4096; row++) {
            state = (1664525 * state + 1013904223) % 4294967296
            text = what
            sub("BIT", row % 32, text)
            print "at " row * period + 1 + int(state / 65536) % period " " text
        }
    }'
}

# The rows of a kind: what is done to the claims, and the periods.
rows() {
    kind=$1 what=$2
    shift 2
    for period; do
        while read -r place image without; do
            script "$what" "$period" "$place" >"$room/script"
            echo "$(numbers "$image" --script "$room/script" </dev/null) $without"
        done <"$room/without" | awk -v name="$kind,$core,$width,$port,$period" -v most=$((4096 * period)) '
            { programs++; count += $1; flushes += $2; cycles += $3; without += $4; late += $3 > most }
            END { if (!late) printf "%s,%d,%d,%d,%d,%d,%.4f\n", name, programs, count, flushes, cycles, without, cycles / without }'
    done
}

place=0
for image; do
    place=$((place + 1))
    echo "$place $image $(numbers "$image" | cut -d ' ' -f 3)"
done >"$room/without"
rows flip 'lane 0 flip value BIT' 20 50 100 200 500 1000 2000 5000
rows hush 'hush 70' 200 500 1000 2000 5000
