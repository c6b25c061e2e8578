#!/bin/sh
# The shares of those faults that hit a claim, as rows `NAME,OF,..`: NAME stands before each row that `diva_lab rate` writes of their lines.
#
# usage: examples/figures/hits.sh NAME GROUPS LINES..     GROUPS are some of all, model, field and bit, with commas between them
set -u
: "${PROGRAM:=./diva_lab}"
[ $# -ge 3 ] || { sed -n 's/^# usage: /usage: /p' "$0" >&2; exit 2; }
name=$1 groups=$2
shift 2
awk -F , '$7 == "yes"' "$@" | "$PROGRAM" rate - | awk -F , -v name="$name" -v groups=",$groups," '
    NF == 8 && $1 == "of" { shares = $3 == "what"; next }
    shares && index(groups, "," $1 ",") { print name "," $0 }'
