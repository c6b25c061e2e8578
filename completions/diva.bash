# Completions for bash of the words of diva and diva_lab. Made by launcher/completions of the tables beside it.
#
# usage: source completions/diva.bash

_diva_commands() {
    echo run tape duo debug asm dis migrate soak campaign help
    [ "${COMP_WORDS[0]##*/}" != diva_lab ] || echo log draw judge inject rate
}

_diva_options() {
    case $1 in
    run) echo --core --tape --script --width --window --stores --watchdog --port --room --cycles --trace --dump --liar ;;
    tape) echo --core --tape --script --width --window --stores --watchdog --port --room --cycles ;;
    duo) echo --core --width --window --stores --watchdog --room --cycles --dump ;;
    debug) echo --core --tape --script --window --stores --watchdog --port --room ;;
    migrate) echo --room ;;
    campaign) echo --cycles ;;
    log) echo --core --tape --script --width --window --stores --watchdog --port --room --cycles --liar ;;
    draw) echo --core --tape --script --width --window --stores --watchdog --port --room --cycles --liar --from --to ;;
    judge) echo --width --window --stores --watchdog --port --room --stop --answer ;;
    inject) echo --core --tape --script --width --window --stores --watchdog --port --room --cycles --model --fields --from --to --part --first ;;
    esac
}

# The names that an option of a command takes, after a comma if it takes a list of them; nothing if it takes a file, or `-` if it takes what can't
# be listed.
_diva_values() {
    case $1,$2 in
    run,--core | tape,--core | debug,--core | log,--core | draw,--core | inject,--core) echo own lockstep scalar silent flood echo noise tape ;;
    duo,--core) echo scalar lockstep silent ;;
    inject,--model) echo , flip set lose double hush stuck ;;
    inject,--fields) echo , pc word src1 src2 addr value next end ;;
    run,--tape | tape,--tape | debug,--tape | log,--tape | draw,--tape | inject,--tape) ;;
    run,--script | tape,--script | debug,--script | log,--script | draw,--script | inject,--script) ;;
    *) echo - ;;
    esac
}

# Whether the word before is an option that takes a value. Bash takes `=` for a word of its own.
_diva_waits() {
    case $before in
    --trace | --answer) return 1 ;;
    esac
    [[ " $(_diva_options "$command") " == *" $before "* ]]
}

_diva() {
    local word=${COMP_WORDS[COMP_CWORD]} before=${COMP_WORDS[COMP_CWORD - 1]} command=${COMP_WORDS[1]} words=
    if [ "$word" = = ]; then
        word=
    elif [ "$before" = = ]; then
        before=${COMP_WORDS[COMP_CWORD - 2]}
    fi
    case $COMP_CWORD,$command,$word in
    1,* | 2,help,*) words=$(_diva_commands) ;;
    *) if _diva_waits; then words=$(_diva_values "$command" "$before"); elif [[ $word == -* ]]; then words=$(_diva_options "$command"); fi ;;
    esac
    COMPREPLY=()
    case $words in
    '') ;;
    -) compopt +o default 2>/dev/null ;;
    ,*)
        # The names before the last comma stay as they are, and another comma may follow.
        compopt -o nospace 2>/dev/null
        COMPREPLY=($(compgen -P "${word%"${word##*,}"}" -W "${words#,}" -- "${word##*,}"))
        ;;
    *) COMPREPLY=($(compgen -W "$words" -- "$word")) ;;
    esac
}

complete -o default -F _diva diva diva_lab
