# shellcheck shell=bash
# What the tests of pages have in common: the exchanges that a page quotes, and where two files of answers differ. It is
# read by the scripts, after tests/check.sh, and not run.

short() { # TEXT
    if [ "${#1}" -gt 70 ]; then
        printf '%s... (%d characters)' "${1:0:70}" "${#1}"
    else
        printf '%s' "$1"
    fi
}

# The place, from 1, of the first character that differs.
differs_at() { # TEXT TEXT
    local low=0 high=${#1} middle
    while [ "$low" -lt "$high" ]; do
        middle=$(((low + high + 1) / 2))
        if [ "${1:0:middle}" = "${2:0:middle}" ]; then low=$middle; else high=$((middle - 1)); fi
    done
    echo $((low + 1))
}

# alike LINES STORED GOT: succeeds where the files STORED and GOT are equal, and else tells the first line that differs.
# Line n of the file LINES is what line n of the two is about.
alike() {
    local lines stored got n=0
    cmp -s "$2" "$3" && return
    mapfile -t lines < <(tr -d '\0' <"$1")
    mapfile -t stored < <(tr -d '\0' <"$2")
    mapfile -t got < <(tr -d '\0' <"$3")
    while [ "$n" -lt "${#stored[@]}" ] && [ "$n" -lt "${#got[@]}" ] &&
        [ "${stored[n]}" = "${got[n]}" ]; do
        n=$((n + 1))
    done
    echo "line $((n + 1)): $(short "${lines[n]-(no such line)}")"
    echo "stored: $(short "${stored[n]-(no such line)}")"
    echo "got:    $(short "${got[n]-(no such line)}")"
    no "they differ from character $(differs_at "${stored[n]-}" "${got[n]-}") on"
}

# A page quotes exchanges in blocks that begin with '```WORD NAME'. Line and answer take turns there, parted by blanks
# or line ends; '0{n}' stands for n digits 0. All blocks of a name together are its lines and answers, without comments.
quoted() { # PAGE WORD; writes quoted/NAME
    rm -rf quoted
    mkdir -p quoted
    awk -v folder=quoted -v word="$2" '
        function zeros(n,    text) { while (n-- > 0) text = text "0"; return text }
        function full(text,    n) {
            while (match(text, /0[{][0-9]+[}]/)) {
                n = substr(text, RSTART + 2, RLENGTH - 3) + 0
                text = substr(text, 1, RSTART - 1) zeros(n) substr(text, RSTART + RLENGTH)
            }
            return text
        }
        $1 == "```" word { name = $2; inside = 1; next }
        /^```/ { inside = 0; next }
        inside { for (i = 1; i <= NF; i++) print full($i) >(folder "/" name) }
    ' "$1"
}
