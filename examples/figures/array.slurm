#!/bin/sh
# A campaign on many machines: each task of an array takes a part of the faults, and none has to know of another.
#
#     sbatch --array=0-99 examples/figures/array.slurm 100 IMAGE COUNT SEED [OPTION..]
#
# 100 is the number of parts; the other words are those of `diva_lab inject` but for --part and --first. The lines of part K go to lines/K.csv. A task
# that was broken off goes on after its last whole line if it is submitted again, by the same words: `sbatch --array=3,17 ..` for the parts 3 and 17
# alone. When all are done, the rates of all parts are those of the whole, and `missing 0` says that none is left out:
#
#     ./diva_lab rate lines/*.csv
#
# PROGRAM names the workbench, ./diva_lab by default.
#SBATCH --job-name=faults
#SBATCH --ntasks=1
#SBATCH --cpus-per-task=1
#SBATCH --time=08:00:00
set -u
: "${PROGRAM:=./diva_lab}"
[ $# -ge 4 ] || { sed -n 's/^#     sbatch /usage: sbatch /p' "$0" >&2; exit 2; }
parts=$1
shift
mkdir -p lines
lines=lines/$SLURM_ARRAY_TASK_ID.csv
if [ -s "$lines" ]; then
    # A last line without its line feed may be half a line.
    [ -z "$(tail -c 1 "$lines")" ] || sed -i '$d' "$lines"
    last=$(tail -n 1 "$lines" | cut -d , -f 1)
    case $last in [0-9]*) set -- "$@" --first $((last + 1)) ;; esac
fi
exec "$PROGRAM" inject "$@" --part "$SLURM_ARRAY_TASK_ID/$parts" >>"$lines"
