# shellcheck shell=bash disable=SC2154,SC2034 # root and name are the command's, and others are for it
# What the commands of this repository share. A command sets root, the top folder, and name, what it is called, and
# sources this.

# Where a command's programs, texts and pages are. An installed ctc has its programs beside its words and builds
# nothing; it reaches texts and pages by links, so that what tools/install laid out may be moved as a whole.
if [ -d "$root/programs" ]; then
    installed=yes programs=$root/programs
    texts=$(readlink -f "$root/texts") pages=$(readlink -f "$root/pages")
    names=$texts/names.txt record_usage=$texts/record-usage.txt
else
    installed=no programs=$root/target/bin
    texts=$root pages=$root/docs
    names=$root/words/names.txt record_usage=$root/words/src/record/usage.txt
fi

# Proves and builds what a command needs, by the word of tools/build. It takes nothing from standard input, which is the
# program's.
needs() { # WORD PROGRAM
    if [ "$installed" = no ]; then
        "$root/tools/build" "$1" </dev/null || exit 1
    elif [ ! -x "$programs/$2" ]; then
        fail "$programs/$2 is missing: install it again"
    fi
}

# What a command says of others, of pages and of stored files, as it is where the command is: ctc for ./ctc, in the same
# columns, and where the pages and the stored files are.
as_installed() {
    local text
    text=$(cat)
    if [ "$installed" = yes ]; then
        text=$(sed -E 's|^  \./ctc ([^ ].*[^ ])(  +)([^ ])|  ctc \1\2  \3|; s|\./ctc|ctc|g' <<<"$text")
        [[ $text != *docs/* ]] || text+=$'\n'"docs/ is $pages."
        [[ $text != *sessions/* ]] || text+=$'\n'"sessions/ is $texts/sessions."
    fi
    printf '%s\n' "$text"
}

# Answers --help with the comment at the head of the command's file, and --version; after either nothing else is done.
answer_help() { # WORDS...
    case ${1:-} in
    -h | --help) awk 'NR > 1 { if (!/^#/) exit; sub(/^# ?/, ""); print }' "$0" | as_installed ;;
    --version) echo "$name $(<"$root/VERSION")" ;;
    *) return 0 ;;
    esac
    exit 0
}

wrong_usage() { # WHAT
    printf '%s: %s; --help says more\n' "$name" "$1" >&2
    exit 2
}

# Says what was refused or failed, and what to do about it.
fail() { # WHAT...
    printf '%s: %s\n' "$name" "$*" >&2
    exit 1
}

no_words() { # WORDS...
    [ $# -eq 0 ] || wrong_usage "no word is taken, and there is '$1'"
}

# Tells whether target/ can be written, and makes it where it is missing; says nothing.
target_writable() {
    mkdir -p "$root/target" 2>/dev/null && [ -w "$root/target" ]
}

# The first file of the crates, or of one, that is newer than a file, or a folder in which one came or went; nothing
# where there is none. What rt keeps in out/ is no source, and must-fail edits are no part of what is built.
newer_source() { # FILE [CRATE]
    find "$root/crates${2:+/$2}" "$root/crates.txt" \( -name must-fail -o -path "$root/crates/*/out" \) -prune -o \
        -path "$root/crates/*" ! -path "$root/crates/*/*" -o -newer "$1" -print -quit
}

# The folder of the kit that rt is of.
kit_folder() {
    dirname "$(readlink -f "$(rt doc 2>/dev/null)")"
}

# The words that the table of names has for a number, as they stand there.
name_of() { # KIND NUMBER
    awk -F '|' -v kind="$1" -v number="$2" '$1 == kind && $2 == number { print $3; exit }' "$names"
}
