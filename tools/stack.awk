# Reads what objdump says of an object, and works out the stack of its functions; tools/stack calls it and says what
# is printed. The depth at an instruction is how many bytes the stack pointer is below what the caller had before its
# call. It is followed from the first instruction of a function along every jump; two ways to an instruction must
# agree on it, and a return must find it as it was. Instructions that no jump leads to are those of a table, and have
# the depth of the jump by it.

function refuse(where, what) {
    printf "%s: %s: %s\n", name, where, what | "cat >&2"
    refused = 1
    exit 1
}

# A hexadecimal number, with 0x before it or not; 64 bits with the highest set are below 0.
function number(text, value, i, negative) {
    sub(/^0x/, "", text)
    negative = length(text) == 16 && text ~ /^[89a-f]/
    value = negative ? -1 : 0
    for (i = 1; i <= length(text); i++) {
        # of a number below 0 the leading digits f are the -1 that it begins with
        if (negative && value == -1 && substr(text, i, 1) == "f") continue
        value = 16 * value + index("0123456789abcdef", substr(text, i, 1)) - 1
    }
    return value
}

function at(i) { return FUNCTION[OWNER[i]] " at " ADDRESS[i] ": " TEXT[i] }

# ---- the lines of objdump ----

/^Disassembly of section / {
    section = $4
    sub(/:$/, "", section)
    next
}

/^[0-9a-f]+ <.*>:$/ {
    functions++
    FUNCTION[functions] = substr($2, 2, length($2) - 3)
    FIRST[functions] = count + 1
    KNOWN[FUNCTION[functions]] = functions
    START[section, number($1)] = functions
    SECTION[section] = 1
    next
}

/^[ \t]*[0-9a-f]+:/ {
    if (!functions) next
    line = $0
    target = ""
    if (match(line, /\t[0-9a-f]+: R_[A-Z0-9_]+\t/)) {
        split(substr(line, RSTART + 1), words, /:? R_[A-Z0-9_]+\t/)
        target = words[2]
        # a word between instructions, which may be the address of a function
        if (line ~ / R_ARM_ABS32\t/) WORD[section, number(words[1])] = target
        line = substr(line, 1, RSTART - 1)
        if (line ~ /^[ \t]*$/) next
    }
    literal = match(line, /@ \(?[0-9a-f]+ </) ? substr(line, RSTART + 2, RLENGTH - 4) : ""
    sub(/^\(/, "", literal)
    sub(/ *[@;#] 0x[0-9a-f]+$|\t@ .*$|[ \t]+# .*$/, "", line)
    match(line, /^ *[0-9a-f]+:/)
    address = substr(line, 1, RLENGTH - 1)
    sub(/^ */, "", address)
    line = substr(line, RLENGTH + 1)
    gsub(/[ \t]+/, " ", line)
    sub(/^ /, "", line)
    sub(/ $/, "", line)
    count++
    ADDRESS[count] = address
    TEXT[count] = line
    TARGET[count] = target
    LITERAL[count] = literal
    PLACE[section, number(address)] = count
    WHERE[count] = section
    OWNER[count] = functions
    LAST[functions] = count
}

# ---- what an instruction is ----

# The function at a place that a relocation names, its number; "" for one that is not here. `behind` is how far the
# place counts from.
function function_named(i, behind, text, offset) {
    text = TARGET[i]
    offset = 0
    if (match(text, /[-+]0x[0-9a-f]+$/)) {
        offset = number(substr(text, RSTART + 1))
        if (substr(text, RSTART, 1) == "-") offset = -offset
        text = substr(text, 1, RSTART - 1)
    }
    offset += behind
    if (text in SECTION) {
        if (!((text, offset) in START)) refuse(at(i), "leads to no function")
        return START[text, offset]
    }
    if (text in KNOWN) {
        if (offset != 0) refuse(at(i), "leads into a function")
        return KNOWN[text]
    }
    if (text !~ /^(memcpy|memset|memmove)$/) refuse(at(i), text " is neither here nor memcpy, memset or memmove")
    return ""
}

# Sets `leads`: "call" or "inside"; and `reached`, the number of the function (0: one of the three that count 0) or of
# the instruction.
function follow(i, operand, here) {
    if (TEXT[i] ~ /^blx /) {
        reached = HELD[i, substr(TEXT[i], 5)]
        leads = "call"
        return
    }
    if (TARGET[i] != "") {
        reached = function_named(i, processor == "arm" ? 0 : 4) + 0
        leads = "call"
        return
    }
    operand = TEXT[i]
    sub(/ <.*$/, "", operand)
    sub(/^.* /, "", operand)
    if (operand !~ /^[0-9a-f]+$/) refuse(at(i), "leads to a place that is not known")
    if (!((WHERE[i], number(operand)) in PLACE)) refuse(at(i), "leads to no instruction")
    here = PLACE[WHERE[i], number(operand)]
    if (OWNER[here] != OWNER[i] || (kind == "call" && (WHERE[i], number(operand)) in START)) {
        if (!((WHERE[i], number(operand)) in START)) refuse(at(i), "leads into a function")
        reached = START[WHERE[i], number(operand)]
        leads = "call"
        return
    }
    reached = here
    leads = "inside"
}

# Sets `kind`: call, jump, branch (a jump that may not be taken), return, perhaps (a return that may not be taken),
# end (nothing follows), table, data, or plain.
function classify(i, text, first) {
    text = TEXT[i]
    first = text
    sub(/ .*$/, "", first)
    kind = "plain"
    if (first ~ /^\./ || text ~ /^\(bad\)|UNDEFINED/) kind = "data"
    else if (processor == "arm") classify_arm(i, text, first)
    else classify_x86(i, text, first)
}

# The last instruction before i that writes a register of x86-64, whatever part of it, with no jump or call between; 0
# for none.
function written_before(i, register, part, j) {
    part = register ~ /^r[0-9]+$/ ? register "[dwb]?" : "[re]?" substr(register, 2) "l?|" substr(register, 2, 1) "[lh]"
    for (j = i - 1; j >= FIRST[OWNER[i]] && TEXT[j] !~ /^(j|call|ret)/; j--) if (TEXT[j] ~ ("%(" part ")$")) return j
    return 0
}

function classify_x86(i, text, first, register, j) {
    sub(/^(notrack|bnd|repz|rep) /, "", text)
    first = text
    sub(/ .*$/, "", first)
    if (first ~ /^callq?$/) kind = "call"
    else if (first ~ /^retq?$/) kind = "return"
    else if (first ~ /^(ud2|hlt|int3)$/) kind = "end"
    else if (first ~ /^jmpq?$/) kind = "jump"
    else if (first ~ /^j/) kind = "branch"
    if (text !~ / \*/) return
    # by a table: the place was loaded from one in the instructions before, or is loaded by the jump itself, from
    # constants
    if (kind == "jump" && text ~ / \*%r[a-z0-9]+$/) {
        register = substr(text, index(text, "%") + 1)
        j = written_before(i, register)
        j = j && TEXT[j] ~ /^add %/ ? written_before(j, register) : 0
        if (j && TEXT[j] ~ /^movslq (0x0)?\(.*,4\),/) kind = "table"
    }
    if (kind == "jump" && text ~ / \*0x0\(,%r[a-z0-9]+,8\)$/ && TARGET[i] ~ /^\.rodata/) kind = "table"
    if (kind != "table") refuse(at(i), "an indirect call")
}

function classify_arm(i, text, first) {
    sub(/\.[nw]$/, "", first)
    if (first ~ /^bl(eq|ne|cs|cc|hs|lo|mi|pl|vs|vc|hi|ls|ge|lt|gt|le)?$/ && first !~ /^bl[est]$/) kind = "call"
    else if (text ~ /^blx [a-z0-9]+$/ && HELD[i, substr(text, 5)] != "") kind = "call"
    else if (first ~ /^tb[bh]$/) kind = "table"
    else if (first == "b") kind = "jump"
    else if (first ~ /^b(eq|ne|cs|cc|hs|lo|mi|pl|vs|vc|hi|ls|ge|lt|gt|le)$|^cbn?z$/) kind = "branch"
    else if (first ~ /^udf/) kind = "end"
    else if (text ~ /^bx[a-z]* lr$|^(pop|ldmia)[a-z]*(\.w)? .*pc\}$|^ldr[a-z]*(\.w)? pc, \[sp\], /) {
        kind = text ~ /^(bx|pop|pop\.w|ldmia|ldmia\.w|ldr|ldr\.w) / ? "return" : "perhaps"
    } else if (first ~ /^bl?x/ || text ~ /^[a-z.]+ pc,|pc\}$/) refuse(at(i), "an indirect call")
}

# ---- the depth behind an instruction ----

function registers(text, words) {
    sub(/^.*\{/, "", text)
    sub(/\}.*$/, "", text)
    if (text ~ /-/) refuse("a list of registers", text)
    return split(text, words, ",")
}

# An alignment of the stack pointer: what it may take at most, the caller's own being a multiple of `base`.
function aligned(depth, to, base) {
    return to > base ? depth + to - base + (base - depth % base) % base : depth
}

function behind(i, depth) { return processor == "arm" ? behind_arm(i, depth, TEXT[i]) : behind_x86(i, depth, TEXT[i]) }

function behind_x86(i, depth, text, amount) {
    # below the stack pointer a function that calls none may use bytes without taking them
    if (match(text, /-0x[0-9a-f]+\(%rsp/)) note(OWNER[i], depth + number(substr(text, RSTART + 1, RLENGTH - 6)))
    if (OWNER[i] in BASE && match(text, /-0x[0-9a-f]+\(%rbp/)) {
        note(OWNER[i], BASE[OWNER[i]] + number(substr(text, RSTART + 1, RLENGTH - 6)))
    }
    if (text ~ /^pushq? /) return depth + 8
    if (text ~ /^popq? /) {
        if (text ~ /%rsp$/) refuse(at(i), "moves the stack pointer by an amount that is not known")
        return depth - 8
    }
    if (text ~ /^leaveq?$/) return BASE[OWNER[i]] - 8
    if (text == "mov %rsp,%rbp") BASE[OWNER[i]] = depth
    if (text ~ /^(push|pop|enter|leave|xchg .*%rsp)|%(esp|sp|spl)$/) {
        refuse(at(i), "moves the stack pointer in a way that is not known")
    }
    if (text !~ /%rsp$/ || text ~ /^(cmp|test)/) return depth
    amount = text
    if (text ~ /^(sub|add)q? \$0x[0-9a-f]+,%rsp$/) {
        sub(/^.*\$/, "", amount)
        sub(/,.*$/, "", amount)
        return text ~ /^sub/ ? depth + number(amount) : depth - number(amount)
    }
    if (text ~ /^and \$0xf+[0-9a-f]+,%rsp$/) {
        sub(/^.*\$/, "", amount)
        sub(/,.*$/, "", amount)
        return aligned(depth, -number(amount), 16)
    }
    if (text ~ /^lea -?0x[0-9a-f]+\(%r[sb]p\),%rsp$/) {
        sub(/^lea /, "", amount)
        sub(/\(.*$/, "", amount)
        amount = amount ~ /^-/ ? -number(substr(amount, 2)) : number(amount)
        return (text ~ /\(%rsp\)/ ? depth : BASE[OWNER[i]]) - amount
    }
    if (text == "mov %rbp,%rsp" && OWNER[i] in BASE) return BASE[OWNER[i]]
    refuse(at(i), "moves the stack pointer by an amount that is not known")
}

function behind_arm(i, depth, text, amount, register) {
    amount = text
    sub(/^.*#/, "", amount)
    sub(/\].*$/, "", amount)
    if (text ~ /^(push|stmdb|vpush|vstmdb)/) {
        if (text !~ /^(push(\.w)? \{|stmdb(\.w)? sp!, \{)/) {
            if (text !~ /sp/) return depth
            refuse(at(i), "moves the stack pointer in a way that is not known")
        }
        return depth + 4 * registers(text)
    }
    if (text ~ /^(pop|ldmia)/) {
        if (text !~ /^(pop[a-z]*(\.w)? \{|ldmia[a-z]*(\.w)? sp!, \{)/) return depth
        return depth - 4 * registers(text)
    }
    if (text ~ /\[sp, #-[0-9]+\]!$/) {
        sub(/^-/, "", amount)
        return depth + amount
    }
    if (text ~ /\[sp\], #[0-9]+$/) return depth - amount
    if (text ~ /sp!|\[sp.*\]!|\[sp\],/) refuse(at(i), "moves the stack pointer in a way that is not known")
    # written to, and not moved
    if (text ~ /^stm(ia)?(\.w)? sp, \{/) return depth
    # the register that a frame is found by
    if (text ~ /^add r7, sp, #[0-9]+$/) BASE[OWNER[i]] = depth - amount
    if (text == "mov r7, sp") BASE[OWNER[i]] = depth
    if (text !~ /^[a-z.]+ sp,/ || text ~ /^(cmp|cmn|tst)/) return depth
    if (text ~ /^sub(\.w|w)? sp, (sp, )?#[0-9]+$/) return depth + amount
    if (text ~ /^add(\.w|w)? sp, (sp, )?#[0-9]+$/) return depth - amount
    if (text == "mov sp, r7" && OWNER[i] in BASE) return BASE[OWNER[i]]
    if (text ~ /^sub(\.w|w|s)? sp, r7, #[0-9]+$/ && OWNER[i] in BASE) return BASE[OWNER[i]] + amount
    if (text ~ /^mov sp, r[0-9]+$/) {
        register = substr(text, 9)
        # a frame's end, and an alignment, each by another register
        if (TEXT[i - 1] ~ ("^subs?(\\.w|w)? " register ", r7, #[0-9]+$") && OWNER[i] in BASE) {
            amount = TEXT[i - 1]
            sub(/^.*#/, "", amount)
            return BASE[OWNER[i]] + amount
        }
        if (TEXT[i - 1] ~ ("^bfc " register ", #0, #[0-9]+$") && TEXT[i - 2] == "mov " register ", sp") {
            amount = TEXT[i - 1]
            sub(/^.*#/, "", amount)
            return aligned(depth, 2 ^ amount, 8)
        }
    }
    refuse(at(i), "moves the stack pointer by an amount that is not known")
}

# ---- the address of a function in a register ----

# A compiler that makes Cortex-M code small loads the address of a function that it calls several times into a
# register, by a word between the instructions. HELD has such registers before an instruction, as far as every way to
# it agrees.

# Sets HOLDS, what registers hold behind instruction i: anything that names one, but for a call by it, ends what it
# held.
function hold(i, text, register, word, k, names) {
    text = TEXT[i]
    for (k = split("r0 r1 r2 r3 ip r4 r5 r6 r7 r8 r9 sl fp", names, " "); k > 0; k--) {
        register = names[k]
        HOLDS[register] = HELD[i, register]
        if (HOLDS[register] == "") continue
        # a call keeps the registers from r4 on
        if (kind == "call" ? k <= 5 : text ~ ("[^a-z0-9]" register "([^a-z0-9]|$)")) HOLDS[register] = ""
    }
    if (LITERAL[i] != "" && text ~ /^ldr(\.[nw])? [a-z0-9]+, \[pc/) {
        word = WORD[WHERE[i], number(LITERAL[i])]
        register = text
        sub(/^[^ ]* /, "", register)
        sub(/,.*$/, "", register)
        if (word in KNOWN) HOLDS[register] = KNOWN[word]
    }
}

# ---- a function ----

function reach(i, depth, register, changed) {
    if (i in DEPTH) {
        if (DEPTH[i] != depth) refuse(at(i), "two ways to it have taken " DEPTH[i] " and " depth " bytes")
        for (register in HOLDS) {
            if (HELD[i, register] != "" && HELD[i, register] != HOLDS[register]) {
                HELD[i, register] = ""
                changed = 1
            }
        }
        if (changed) OPEN[++open] = i
        return
    }
    DEPTH[i] = depth
    for (register in HOLDS) if (HOLDS[register] != "") HELD[i, register] = HOLDS[register]
    OPEN[++open] = i
}

# A call, from this depth: of `callee`, or 0.
function add_call(f, depth, callee) {
    CALLS[f]++
    CALLEE[f, CALLS[f]] = callee
    CALLED_AT[f, CALLS[f]] = depth
}

function note(f, depth) { if (depth > OWN[f]) OWN[f] = depth }

# Follows all ways from the instructions that are open. A call of one of the three functions goes on behind it.
function walk(f, i, depth, next_depth) {
    while (open > 0) {
        i = OPEN[open--]
        depth = DEPTH[i]
        note(f, depth)
        classify(i)
        if (kind == "data") refuse(at(i), "is no instruction")
        if (kind == "end") continue
        if (processor == "arm") hold(i)
        if (kind == "table") {
            if (TABLE[f] != "" && TABLE[f] != depth) refuse(at(i), "tables are jumped by at two depths")
            TABLE[f] = depth
            continue
        }
        next_depth = depth
        if (kind == "call" || kind == "jump" || kind == "branch") {
            follow(i)
            if (kind == "call") {
                if (leads != "call") refuse(at(i), "a call into the function itself")
                add_call(f, depth, reached)
            } else if (leads == "inside") reach(reached, depth)
            else {
                # the function is left for another one, which returns in its place
                if (depth != entry) refuse(at(i), "leaves the function with " depth " bytes taken")
                add_call(f, 0, reached)
            }
            if (kind == "jump") continue
        } else if (kind == "return" || kind == "perhaps") {
            if (TEXT[i] !~ /^bx|ret/) next_depth = behind(i, depth)
            if (next_depth != entry) refuse(at(i), "returns with " next_depth " bytes taken")
            if (kind == "return") continue
            next_depth = depth
        } else {
            next_depth = behind(i, depth)
            note(f, next_depth)
        }
        if (i == LAST[f]) refuse(at(i), "the function has no end")
        reach(i + 1, next_depth)
    }
}

function measure(f, i, register) {
    open = 0
    OWN[f] = CALLS[f] = 0
    TABLE[f] = ""
    for (i in HOLDS) delete HOLDS[i]
    reach(FIRST[f], entry)
    walk(f)
    for (i = FIRST[f]; i <= LAST[f]; i++) {
        if (i in DEPTH || TEXT[i] ~ /^(nop|xchg %ax,%ax|cs nop|data16|int3|\.)/) continue
        classify(i)
        if (kind == "data") continue
        if (TABLE[f] == "") refuse(at(i), "no jump leads to it")
        for (register in HOLDS) delete HOLDS[register]
        reach(i, TABLE[f])
        walk(f)
    }
}

# ---- the longest chain ----

function deepest(f, k, taken, callee) {
    if (STATE[f] == 2) return
    if (STATE[f] == 1) refuse(FUNCTION[f], "a recursion")
    STATE[f] = 1
    MOST[f] = OWN[f]
    CHAIN[f] = FUNCTION[f] ":" OWN[f]
    for (k = 1; k <= CALLS[f]; k++) {
        callee = CALLEE[f, k]
        if (callee != 0) deepest(callee)
        # of the three functions that are not here, the return address alone
        taken = CALLED_AT[f, k] + (callee == 0 ? entry : MOST[callee])
        if (taken > MOST[f]) {
            MOST[f] = taken
            CHAIN[f] = callee == 0 ? FUNCTION[f] ":" taken : FUNCTION[f] ":" CALLED_AT[f, k] " " CHAIN[callee]
        }
    }
    STATE[f] = 2
}

END {
    if (refused) exit 1
    entry = processor == "arm" ? 0 : 8
    for (f = 1; f <= functions; f++) if (f in LAST) measure(f)
    for (f = 1; f <= functions; f++) if (f in LAST) deepest(f)
    if (frames) {
        for (f = 1; f <= functions; f++) if (f in LAST) print FUNCTION[f], OWN[f]
        exit 0
    }
    number_seen = split(seen, names, "\n")
    for (k = 1; k <= number_seen; k++) {
        if (!(names[k] in KNOWN)) refuse(names[k], "is not among the functions of the object")
        print names[k], MOST[KNOWN[names[k]]], CHAIN[KNOWN[names[k]]]
    }
}
