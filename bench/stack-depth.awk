# For bench/stack: reads a list of names and then what a disassembler prints of a library for x86-64 that has them (objdump or llvm-objdump, with -d -r
# --no-show-raw-insn). Says of each name, `__` read as `::`, how many bytes of stack lie below its call at the deepest: its return address, what it pushes, its
# frame, what it keeps below its stack pointer (the red zone), and the same of what it calls, along the deepest path. Every path through a function is followed,
# with the depth at each instruction. Fails if a number is above `limit`, or above its own where `held` names it, and at what it cannot follow: another change of the stack pointer, a frame pointer, a
# call or a jump through a pointer, a function that is not in the library, a recursion.
function fail(why) { print "bench/stack: " why > "/dev/stderr"; failed = 1; exit 1 }

# A number as a disassembler writes it, decimal or hexadecimal.
function number(digits,    sign, value, i) {
    sign = sub(/^-/, "", digits) ? -1 : 1
    if (digits !~ /^0x/) { return sign * digits }
    # a negative one of 64 bits, which has more digits than awk counts in
    if (sub(/^0xffffffff/, "0x", digits)) { value = -1 }
    for (i = 3; i <= length(digits); i++) { value = 16 * value + index("0123456789abcdef", substr(digits, i, 1)) - 1 }
    return sign * value
}

NR == FNR { asked[++names] = $1; next }

# a function begins, named by its symbol
/^[0-9a-f]+ <.*>:$/ {
    current = substr($2, 2, length($2) - 3)
    if (current in first) { fail("two functions have the name " current) }
    first[current] = instructions + 1
    start = number("0x" $1)
    next
}
# what the linker is to put into the instruction before
/R_X86_64_/ { meant[instructions] = $NF; sub(/^\.text\./, "", meant[instructions]); sub(/[-+]0x[0-9a-f]+$/, "", meant[instructions]); next }
# an instruction: its address, its word, its operands
/^ *[0-9a-f]+:/ && current != "" {
    place = number("0x" substr($1, 1, length($1) - 1)) - start
    sub(/^ *[0-9a-f]+:[ \t]*/, ""); sub(/[ \t]*#.*/, ""); sub(/^(notrack|bnd) /, "")
    line[++instructions] = $0
    word[instructions] = $1
    rest = $0; sub(/^[^ \t]*[ \t]*/, "", rest); gsub(/, /, ",", rest)
    operands[instructions] = rest
    at[current, place] = last[current] = instructions
}

# Where in its function f a jump leads; 0 if it leaves f.
function landing(f, i,    to) {
    to = operands[i]
    if (i in meant || !sub(/^.*</, "", to)) { return 0 }
    sub(/>$/, "", to)
    if (to == f) { return at[f, 0] }
    return index(to, f "+0x") == 1 ? at[f, number(substr(to, length(f) + 2))] : 0
}

# The depth behind an instruction.
function changed(f, i, depth,    from) {
    from = operands[i]
    if (word[i] ~ /^push/) { return depth + 8 }
    if (word[i] ~ /^popq?$/) { return depth - 8 }
    if (word[i] ~ /^(cmp|test)/) { return depth }
    if (word[i] ~ /^(enter|leave)/ || from ~ /,%e?sp$/ || from == "%rsp,%rbp" || word[i] ~ /^xchg/ && from ~ /%rsp/) { fail(f " has a frame that cannot be followed: " line[i]) }
    if (!sub(/,%rsp$/, "", from)) { return depth }
    if (word[i] ~ /^subq?$/ && sub(/^[$]/, "", from)) { return depth + number(from) }
    if (word[i] ~ /^addq?$/ && sub(/^[$]/, "", from)) { return depth - number(from) }
    if (word[i] ~ /^leaq?$/ && sub(/[(]%rsp[)]$/, "", from)) { return depth - number(from) }
    fail(f " changes its stack pointer in a way that cannot be followed: " line[i])
}

# An instruction is reached with a depth: if it was not reached so deep before, what follows is looked at again.
function reach(i, depth) {
    if (i in deep && deep[i] >= depth) { return }
    if (depth > 1000000) { fail("a loop that takes more stack each time: " line[i]) }
    deep[i] = depth
    ahead[++left] = i
}

# A jump by a table, which serves a match; its arms are looked for once all else is followed.
function choose(f, i, depth) {
    if (i in meant) { fail(f " jumps through a pointer: " line[i]) }
    if (!(f in chosen) || chosen[f] < depth) { chosen[f] = depth }
}

# Follows every path of f from instruction i on.
function follow(f, i, depth,    behind, to) {
    reach(i, depth)
    while (left) {
        i = ahead[left--]
        behind = changed(f, i, deep[i])
        if (behind < 0) { fail(f " gives back more stack than it took: " line[i]) }
        if (word[i] ~ /^call/) { calls[f] = 1 }
        if (word[i] ~ /^j/ && operands[i] ~ /^[*]/) { choose(f, i, behind); continue }
        if (word[i] ~ /^j/ && (to = landing(f, i))) { reach(to, behind) }
        if (word[i] !~ /^(jmp|ret|ud2)/ && i < last[f]) { reach(i + 1, behind) }
    }
}

# How deep an instruction goes: itself, what it keeps below the stack pointer, or what it calls.
function deepest(f, i,    most) {
    most = deep[i]
    # where nothing is called, what a register reaches from the stack pointer may lie anywhere in the red zone of 128 bytes
    if (!(f in calls) && (operands[i] ~ /^%rsp,|[(]%rsp,/ || word[i] ~ /^lea/ && operands[i] ~ /[(]%rsp[)],%r[^s]/)) { return most + 128 }
    if (match(operands[i], /-(0x)?[0-9a-f]+[(]%rsp/)) { return most - number(substr(operands[i], RSTART, RLENGTH - 5)) }
    if (word[i] ~ /^call/) { return most + below(f, i) }
    if (word[i] ~ /^j/ && operands[i] !~ /^[*]/ && !landing(f, i)) { return most + below(f, i) - 8 }
    return most
}

# What lies below the call that instruction i of f makes.
function below(f, i) {
    if (!(i in meant)) { fail(f " calls what has no name: " line[i]) }
    if (!(meant[i] in first)) { fail(f " calls " meant[i] ", which is not in the library") }
    return depth_of(meant[i])
}

# What lies below the call of f, its return address included.
function depth_of(f,    i, most, own, arms) {
    if (f in known) { if (known[f] < 0) { fail("a recursion through " f) } return known[f] }
    known[f] = -1
    follow(f, first[f], 0)
    # the arms of a match that goes by a table, which no jump by name reaches, have the depth of its jump
    for (i = first[f]; i <= last[f] && f in chosen; i++) {
        if (!(i in deep) && word[i] !~ /^(nop|int3|xchg|data16|cs)/) { arms++; follow(f, i, chosen[f]) }
    }
    if (f in chosen && !arms) { fail(f " jumps through a pointer") }
    for (i = first[f]; i <= last[f]; i++) {
        if (i in deep && (own = deepest(f, i)) > most) { most = own }
    }
    return known[f] = most + 8
}

END {
    if (failed) { exit 1 }
    for (k = split(held, each, " "); k > 1; k -= 2) { own_limit[each[k - 1]] = each[k] }
    for (k = 1; k <= names; k++) {
        if (!(asked[k] in first)) { fail(asked[k] " is not in the library") }
        name = asked[k]; gsub(/__/, "::", name)
        printf "%5d %s\n", depth_of(asked[k]), name
        most = (asked[k] in own_limit) ? own_limit[asked[k]] : limit
        if (known[asked[k]] > most) { above[++many] = most " bytes: " name }
    }
    for (k = 1; k <= many; k++) { print "above its limit of " above[k] }
    exit many > 0
}
