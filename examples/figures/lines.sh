#!/bin/sh
# The lines of some faults in an image, made on all processors of a machine: each takes a part of them.
#
# usage: examples/figures/lines.sh FIRST COUNT SEED IMAGE [OPTION..] > LINES
#
# They are the faults FIRST to FIRST + COUNT - 1 of SEED, in this order; the options are those of `diva_lab inject` but for --first and --part. PROGRAM
# names the workbench, ./diva_lab by default. JOBS is how many parts there are, by default as many as there are processors. GNU parallel runs them if
# it is there, else xargs does. The parts have nothing in common, so on many machines each can take one: see array.slurm.
set -u
: "${PROGRAM:=./diva_lab}" "${JOBS:=$(getconf _NPROCESSORS_ONLN 2>/dev/null || echo 1)}"
export PROGRAM JOBS

# One part of the faults: its number, a folder, and the words of `inject`. Its status is not 0 if not all lines were written.
one() {
    part=$1 room=$2
    shift 2
    "$PROGRAM" inject "$@" --part "$part/$JOBS" >"$room/$part" && return
    tail -n 1 "$room/$part" >&2
    exit 255
}

# All parts, as many at a time: a folder, and the words of `inject`.
parts() {
    if parallel --version 2>/dev/null | grep -q '^GNU parallel'; then
        seq 0 $((JOBS - 1)) | parallel --will-cite --quote -j "$JOBS" sh "$0" one '{}' "$@"
    else
        seq 0 $((JOBS - 1)) | xargs -P "$JOBS" -I '{}' sh "$0" one '{}' "$@"
    fi
}

if [ "${1-}" = one ]; then
    "$@"
    exit
fi
[ $# -ge 4 ] || { sed -n 's/^# usage: /usage: /p' "$0" >&2; exit 2; }
first=$1 count=$2 seed=$3 image=$4
shift 4
room=$(mktemp -d) || exit 1
trap 'rm -r "$room"' EXIT
trap 'exit 1' HUP INT TERM
parts "$room" "$image" $((first + count)) "$seed" --first "$first" "$@" || exit 1
head -n 1 "$room/0"
for part in "$room"/*; do tail -n +2 "$part"; done | sort -t , -n -k 1,1
