# shellcheck shell=bash
# What the tests have in common: one test at a time, and the count of all. It is read by the scripts, and not run.

passed=0
failed=0
left_out=0

pass() { # NAME
    passed=$((passed + 1))
    echo "ok $1"
}

fail() { # NAME [DETAIL]...
    failed=$((failed + 1))
    echo "FAILED $1"
    shift
    [ $# -eq 0 ] || printf '  %s\n' "$@"
}

# A test whose tool is missing: neither passed nor failed, and counted as left out.
leave_out() { # NAME WHY
    left_out=$((left_out + 1))
    echo "left out: $1: $2"
}

# check NAME COMMAND...: one test, which passes where the command succeeds; where it fails, what it says is shown.
check() {
    local name=$1 reason details
    shift
    if reason=$("$@" 2>&1); then
        pass "$name"
    else
        mapfile -t details < <(printf '%s\n' "${reason:-no reason given}" | head -n 8 | cut -c 1-200)
        fail "$name" "${details[@]}"
    fi
}

no() { # REASON
    echo "$1"
    return 1
}

# add_count NAME STATUS FILE: adds what the last line of FILE counts, 'N passed, M failed', and the line before it,
# where that is 'K left out'. No such last line, no test at all, or a status of the command that does not fit the line
# is one failure more.
add_count() {
    local name=$1 status=$2 last before
    last=$(tail -n 1 "$3")
    before=$(tail -n 2 "$3" | head -n 1)
    if [[ $before =~ ^([0-9]+)\ left\ out$ ]]; then left_out=$((left_out + BASH_REMATCH[1])); fi
    if ! [[ $last =~ ^([0-9]+)\ passed,\ ([0-9]+)\ failed$ ]]; then
        fail "$name: ended with status $status and without its count"
        return
    fi
    passed=$((passed + BASH_REMATCH[1]))
    failed=$((failed + BASH_REMATCH[2]))
    if [ $((BASH_REMATCH[1] + BASH_REMATCH[2])) -eq 0 ]; then
        fail "$name: ran no test"
    elif [ "$((status == 0))" -ne "$((BASH_REMATCH[2] == 0))" ]; then
        fail "$name: ended with status $status after '$last'"
    fi
}

# counted NAME COMMAND...: runs tests whose last line is their count, and adds it. The script names a file for it,
# `log`.
counted() {
    local name=$1
    shift
    # shellcheck disable=SC2154 # log is the script's
    "$@" 2>&1 | tee "$log"
    add_count "$name" "${PIPESTATUS[0]}" "$log"
}

# beside NAME COMMAND...: starts such tests beside what follows. joined NAME: waits for them, shows what they said and
# adds their count. The script names a folder for it, `logs`.
declare -A started=()
beside() {
    local name=$1
    shift
    # shellcheck disable=SC2154 # logs is the script's
    "$@" >"$logs/$name" 2>&1 &
    started[$name]=$!
}
joined() {
    local status=0
    wait "${started[$1]}" || status=$?
    cat "$logs/$1"
    add_count "$1" "$status" "$logs/$1"
}

# The last line of a script of tests, and its status: no test at all is a failure. What was left out stands before it.
finish() {
    [ "$left_out" -eq 0 ] || echo "$left_out left out"
    echo "$passed passed, $failed failed"
    [ "$failed" -eq 0 ] && [ "$passed" -gt 0 ]
}

# A folder of the script's own, where it goes on; it is removed at the end.
own_folder() {
    folder=$(mktemp -d) || exit 2
    trap 'rm -rf -- "$folder"' EXIT
    cd "$folder" || exit 2
    export LC_ALL=C
}
