# shellcheck shell=bash
# Completion of ctc for bash. Words, their own words and their options are those that ctc itself lists, by --help.

_ctc_listed() { # PATTERN WORDS...: what the help has behind ctc and the words, at the start of a line
    local pattern=$1
    shift
    "${COMP_WORDS[0]}" "${@:2}" --help 2>/dev/null | sed -nE "s|^(usage:)? *(\./)?$* ($pattern).*|\3|p" | sort -u
}

_ctc_options() { # WORD NEXT: those of the word; behind a word of its own, those that its line has
    local help own=
    help=$("${COMP_WORDS[0]}" "$1" --help 2>/dev/null)
    [[ ! $2 =~ ^[a-z]+$ ]] || own=$(grep -E "^(usage:)? *(\./)?ctc $1 $2 " <<<"$help")
    [ -z "$own" ] || help="$own --help"
    grep -oE -- '(^|[^a-z-])--[a-z-]+[a-z]' <<<"$help" | sed 's/^[^-]*//' | sort -u
}

_ctc() {
    local current=${COMP_WORDS[COMP_CWORD]} before=${COMP_WORDS[COMP_CWORD - 1]} word=${COMP_WORDS[1]:-}
    COMPREPLY=()
    if [ "$COMP_CWORD" -eq 1 ]; then
        mapfile -t COMPREPLY < <(compgen -W "$(_ctc_listed '[a-z]+' ctc) --help --version" -- "$current")
        return
    fi
    case "$word $before" in
    'explain --drive' | 'jobs --log' | 'rack --alone')
        mapfile -t COMPREPLY < <(compgen -W '0 1 2 3' -- "$current")
        return
        ;;
    'record --density')
        mapfile -t COMPREPLY < <(compgen -W 'gcr mfm' -- "$current")
        return
        ;;
    esac
    case $current in
    -*) mapfile -t COMPREPLY < <(compgen -W "$(_ctc_options "$word" "${COMP_WORDS[2]}")" -- "$current") ;;
    *)
        # a word of the word's own, or a file, which bash itself completes where nothing is found here
        [ "$COMP_CWORD" -ne 2 ] ||
            mapfile -t COMPREPLY < <(compgen -W "$(_ctc_listed '[a-z]+' ctc "$word")" -- "$current")
        [ -z "$current" ] || [ "${#COMPREPLY[@]}" -eq 0 ] ||
            mapfile -t -O "${#COMPREPLY[@]}" COMPREPLY < <(compgen -f -- "$current")
        ;;
    esac
}
complete -o default -F _ctc ctc
