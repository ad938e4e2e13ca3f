# shellcheck shell=bash disable=SC2154 # root, name, lines, width, example, about and page are the command's
# What tools/session, tools/jobs, tools/wear, tools/contest and tools/table share. The program is `name`_main. A command
# that plays lines sets, besides what tools/command.sh asks for: lines, some lines that can be typed, and then, what
# follows where that is not the line's answer; example, a file of lines, which is installed as examples/`name`; about,
# what the example is; width, the columns of its lines; page, which says what they mean; and options, its words beside
# --help.

program=$programs/${name}_main
# how the command is called, and its example
called="$root/ctc $name" example_file=$root/${example:-} example_shown=${example:-}
if [ "$installed" = yes ]; then
    called="ctc $name" example_file=$texts/examples/$name example_shown=$example_file
fi

# A read or a write that failed is told by the program's message and by its status. Where nobody reads the answers any
# more it ends without a word, as other commands do then.
run_program() {
    local message status=0
    { message=$("$program" 2>&1 >&3 3>&-); } 3>&1 || status=$?
    [ -z "$message" ] || printf '%s\n' "$message" >&2
    [ "$status" -eq 0 ] || exit "$status"
}

# What was kept goes on to standard output, and is told where it does not arrive, unless nobody reads any more.
hand_on() { # FILE WHAT
    local status=0
    cat "$1" 2>/dev/null || status=$?
    [ "$status" -le 128 ] || exit "$status"
    [ "$status" -eq 0 ] || fail "$2 cannot be written"
}

# A folder of the command's own, in `kept`; it is removed at the end.
keep_folder() {
    kept=$(mktemp -d) || fail "a temporary folder cannot be made: TMPDIR names where"
    trap 'rm -rf -- "$kept"' EXIT
}

say_how_to_type() {
    [ -t 0 ] || return 0
    printf '%s: type a line, such as %s, and Enter: %s; Ctrl-D at the start of a line ends\n' \
        "$name" "$lines" "${then:-its answer follows}" >&2
}

play() {
    # a closed descriptor would be taken by the pipe that brings the message
    { true 4<&0 5>&1; } 2>/dev/null || fail "standard input or output is closed"
    say_how_to_type
    run_program
}

# Lines that begin with # are comments, whatever the program answers to them.
play_example() {
    echo "$about, $example_shown, each line beside its answer:"
    # shellcheck disable=SC2094 # nothing here writes to it
    play <"$example_file" | paste "$example_file" - |
        awk -F '\t' -v width="$width" '/^#/ { print "    " $1; next } { printf "    %-*s%s\n", width, $1, $2 }'
    as_installed <<<"$page says what lines and answers mean. To type lines of your own: $called -"
}

# Tells whether a word is a file that can be read, or - for standard input.
is_input() { # FILE
    case $1 in
    -) return ;;
    -*) wrong_usage "$1 is neither a file nor ${options:-}--help nor --version" ;;
    esac
    [ -e "$1" ] || fail "$1 is not there"
    [ ! -d "$1" ] || fail "$1 is a folder, and no file"
    [ -r "$1" ] || fail "$1 cannot be read"
}

# Lines and words, each beside its meaning: the words program, Rust over the proved functions.
tells_words() {
    case $name in session | jobs) [ "$installed" = yes ] || [ -f "$root/words/Cargo.toml" ] ;; *) return 1 ;; esac
}
play_told() { # FILE
    needs words ctc-words
    exec "$programs/ctc-words" prompt "--$name" "$1"
}

play_words() { # WORDS...
    answer_help "$@"
    local told=no
    if tells_words; then
        case "${1:-} ${2:-}" in
        '--words '*) told=yes && shift ;;
        *' --words') told=yes && set -- "$1" "${@:3}" ;;
        esac
    fi
    [ $# -le 1 ] || wrong_usage "one file at a time, and there are $# words"
    local file=${1--}
    is_input "$file"
    [ "$told" = no ] || play_told "$file"
    # what is typed is told in words where the program for it is there or can be built
    if [ "$#$file" = 1- ] && [ -t 0 ] && [ -t 1 ] && tells_words &&
        { [ -x "$programs/ctc-words" ] || command -v cargo >/dev/null; }; then
        play_told -
    fi
    needs "$name" "${name}_main"
    if [ "$file" != - ]; then
        play <"$file"
    elif [ $# -eq 0 ] && { [ -t 0 ] || [ /dev/stdin -ef /dev/null ]; }; then
        play_example
    else
        play
    fi
}
