# What `diva_lab inject` shows on a terminal's standard error while its lines go elsewhere: how many faults are done, and of how many, how many a
# second, and how long is left at that pace. `diva` reads this file then. The program writes its lines to a pipe, and they are passed on one by one.

# Runs the program, and sets `status`. The words are the whole command, the last of which are those of the person.
run_counted() {
    faults=$(of_words faults "$@")
    if [ "${faults:-0}" = 0 ] || ! make_pipe; then
        run_plainly "$@"
        return
    fi
    running=counted
    "$@" <&3 3<&- >"$folder/lines" &
    exec 4<"$folder/lines"
    remove_pipe
    # What reads the lines may end, and that must not end the launcher.
    trap '' PIPE
    finished=0
    next=1
    unwritten=
    pass_on <&4 || unwritten=yes
    trap - PIPE
    exec 4<&-
    wait "$!"
    status=$?
    running=
    if [ "$finished" -gt 0 ]; then
        show_faults
        echo >&2
    fi
    # The program can't know of a line that was not passed on after it had ended.
    [ "$status,$unwritten" != 0,yes ] || status=9
}

# Makes a pipe that has a name, `lines` in a folder of its own, since this shell must know the program and read its lines too.
make_pipe() {
    folder=$(mktemp -d 2>/dev/null) || return
    trap remove_pipe EXIT
    mkfifo "$folder/lines" 2>/dev/null && return
    remove_pipe
    return 1
}

remove_pipe() {
    rm -rf "$folder"
    trap - EXIT
}

# Passes on the lines of standard input, and counts the faults, whose lines begin with a number. It fails if it can't pass on a line.
pass_on() {
    while IFS= read -r line; do
        printf '%s\n' "$line" 2>/dev/null || return
        case $line in
        [0-9]*) count_fault ;;
        esac
    done
    # What has no line feed at its end is passed on as it is.
    printf %s "$line" 2>/dev/null
}

# The clock is read twice a second, at the pace of all faults so far.
count_fault() {
    finished=$((finished + 1))
    [ "$finished" -ge "$next" ] || return 0
    show_faults
    if [ "$seconds" -gt 0 ]; then next=$((finished + finished / (2 * seconds) + 1)); else next=$((2 * finished)); fi
}

# Shows it, each time anew in its place. In the first second there is no pace.
show_faults() {
    seconds=$(($(date +%s) - began))
    said="$finished of $faults faults"
    if [ "$seconds" -gt 0 ]; then
        tenths=$((10 * finished / seconds))
        left=$(((faults - finished) * seconds / finished))
        said="$said, $((tenths / 10)).$((tenths % 10)) a second, $(printf '%d:%02d:%02d' $((left / 3600)) $((left / 60 % 60)) $((left % 60))) left"
    fi
    printf "\r$name: %-70s" "$said" >&2
}
