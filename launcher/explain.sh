# What `diva` says on a terminal's standard error of a run that ended with another status than 0. It reads this file then, and has in `status`
# how the run ended, in `took` how many seconds it took, in `given` how many words the person gave, and in `command` the first of them. The words
# of most calls below are the whole command that was run, the last of which are those of the person.

# Says what the status means.
explain() {
    case $status in
    2) of_words fault "$@" >&2 ;;
    3) say_trapped "$@" ;;
    4) if [ "$command" = judge ]; then say_judged short "$@"; else say_goes_on "$@"; fi ;;
    5) say_refused "$@" ;;
    6) say_judged wrong "$@" ;;
    8) say_unreadable "$@" ;;
    9) say_unwritten ;;
    10) say 'memory ran out, and nothing was written' ;;
    esac
}

# ---- the files that the words name: in `files` a line for each, what it is, which word names it, and how

# Sets `file` to the name that a word gives, one of its own or the rest of one, after `=`.
set_file() {
    how=$2
    shift $(($# - given + $1 - 1))
    file=$1
    [ "$how" = own ] || file=${file#*=}
}

# Sets `file` to the name of the one that is a script, say.
find_file() {
    wanted=$1
    shift
    while read -r what place how; do
        [ "$what" != "$wanted" ] || set_file "$place" "$how" "$@"
    done <<END
$files
END
    what=$wanted
}

# Whether the file is a log, or one that is rated, that is read from standard input.
is_input() {
    case $what,$file in
    log,- | file,-) ;;
    *) return 1 ;;
    esac
}

# Whether the command may be run once more: then each file that is there gives the same bytes again. A pipe would not, nor would standard input.
can_be_repeated() {
    while read -r what place how; do
        [ -n "$what" ] || continue
        set_file "$place" "$how" "$@"
        ! is_input || return 1
        [ -f "$file" ] || [ -d "$file" ] || [ ! -e "$file" ] || return 1
    done <<END
$files
END
}

# The same of what has run, or was judged or rated: for that again it must have taken a second at most.
can_be_made_again() {
    [ "$took" -le 1 ] && can_be_repeated "$@"
}

# ---- a sentence for each status

# Standard output was the person's, so the line that names the fault is had by a second run, which reads files alone. In a judgement it comes after
# what was said of the lines before it. Of files that are rated it has the name itself.
say_refused() {
    files=$(of_words files "$@")
    said=
    case $command in
    judge | rate) again=can_be_made_again ;;
    *) again=can_be_repeated ;;
    esac
    ! $again "$@" || said=$("$@" <&3 2>/dev/null | awk '!/^(wrong |ok$|due |over$)/ { print; exit }')
    case $said in
    'refused '*' at '*) ;;
    *)
        say "a file is refused; $here/docs/FORMATS.md says what the kind of fault is that was written"
        return
        ;;
    esac
    what=${said#refused }
    if [ "$command" = rate ]; then set_rated; else find_file "${what%% *}" "$@"; fi
    if [ "$what" = image ]; then text=/dev/null; else text=$file; fi
    ask 'sentences shown refused' <"$text" >&2
}

# Sets `file` to the name in the line, and puts what it is in its place.
set_rated() {
    file=${what% * at *}
    said="refused lines${what#"$file"}"
}

# The first file, in the order in which they are loaded, that can't be.
say_unreadable() {
    files=$(of_words files "$@")
    while read -r what place how; do
        [ -n "$what" ] || continue
        set_file "$place" "$how" "$@"
        if is_input; then continue
        elif [ -z "$file" ]; then why='its name is empty'
        elif [ -d "$file" ]; then why='it is a folder'
        elif [ ! -e "$file" ]; then why='there is no such file'
        elif [ ! -r "$file" ]; then why='you may not read it'
        else continue; fi
        ask 'shown unreadable' >&2
        return
    done <<END
$files
END
    said=unreadable
    if [ "$command" = rate ]; then
        said=
        ! can_be_made_again "$@" || said=$("$@" <&3 2>/dev/null)
    fi
    case $said in
    unreadable*) say "a file can't be read, or not to its end" ;;
    'no memory') say 'memory ran out for the lines of the files' ;;
    *) say "a file can't be read, or not to its end, or memory ran out for the lines" ;;
    esac
}

say_unwritten() {
    if [ -p /dev/fd/1 ]; then why='what reads the pipe has ended'
    elif [ -f /dev/fd/1 ]; then why='the disk is full, or the file may have no more bytes'
    else why='it is closed, or takes no more'; fi
    say "the text was not written whole to standard output: $why"
}

say_goes_on() {
    cycles=$(of_words cycles "$@")
    shift $(($# - given))
    case $1 in
    duo) who='of two harts one goes on, or has a store that is not in memory yet,' ;;
    campaign) who='the first run goes on' ;;
    *) who='the run goes on' ;;
    esac
    say "$who after $cycles cycles; --cycles gives more"
}

# A log that is wrong, or short: how many of its lines are, by the sum at the end of its judgement.
say_judged() {
    said=$1
    shift
    files=$(of_words files "$@")
    told=
    ! can_be_made_again "$@" || told=$("$@" <&3 2>/dev/null | ask judged)
    case $told,$said in
    ,short) say 'the log ends before the program does' ;;
    ,wrong) say 'a line of the log is wrong, or lines are left over after the end of the program' ;;
    *) printf '%s\n' "$told" >&2 ;;
    esac
}

# A run that took a second or less is made once more for its text.
say_trapped() {
    files=$(of_words files "$@")
    told=
    ! can_be_made_again "$@" || told=$(repeat_as_run "$@" | ask 'sentences trapped')
    if [ -n "$told" ]; then
        printf '%s\n' "$told" >&2
        say_room "$@"
    else
        say "the run trapped; $here/docs/MACHINE.md says what the number of its trap means"
    fi
}

# The first run of a C program is often one without a stack.
say_room() {
    case $told in
    *'load outside memory'* | *'store outside memory'*) ;;
    *) return ;;
    esac
    [ "$(of_words room "$@")" = 0 ] || return
    find_file image "$@"
    ! awk 'NR == 1 { found = substr($0, 1, 4) == "\177ELF"; exit } END { exit !found }' <"$file" ||
        say 'the stack of an executable is in the bytes that --room gives it, and these were 0'
}

# Makes the run again, by the command `run` if the person's command writes no text of a run.
repeat_as_run() {
    first=$(($# - given + 1))
    at=0
    skips=
    for word do
        shift
        at=$((at + 1))
        case $at,$skips,$word in
        "$first,,tape" | "$first,,log" | "$first,,draw") word=run skips=yes ;;
        *,yes,--from | *,yes,--to)
            skips=next
            continue
            ;;
        *,yes,--from=* | *,yes,--to=*) continue ;;
        *,next,*)
            skips=yes
            continue
            ;;
        esac
        set -- "$@" "$word"
    done
    "$@" <&3 2>/dev/null
}
