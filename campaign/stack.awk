# What a call of the C interface needs of stack at most, from the instructions of the archive:
#
#     objdump -dr --no-show-raw-insn libagreement.a | awk -v limit=BYTES -f stack.awk
#
# A function needs its return address, every push and every `sub $..,%rsp` in it as if none was ever
# taken back, and the deepest of the functions that it calls. One that calls none may also use the
# 128 bytes below the stack pointer, the ABI's red zone. What does not fit this account is an error:
# a call out of the archive or through a register, a function that reaches itself, any other change
# of the stack pointer. So is a bound over the limit.
#
# The functions that `cycle` names, with spaces between them, may reach each other: their allowance
# falls at each call, so that no more than `allowance` + 1 of them are open at a time. They need as
# many times the largest of their frames, and the deepest of the functions outside the cycle.
#
# The functions that `outside` names are of the C library: each needs `room` bytes.
BEGIN {
    count = split(cycle, names, " ")
    for (n = 1; n <= count; n++) member[names[n]] = 1
    count = split(outside, names, " ")
    for (n = 1; n <= count; n++) {
        frame[names[n]] = 0
        known[names[n]] = room
    }
}
function wrong(where, what) {
    print "stack: " where ": " what
    bad = 1
}
# A number as objdump prints it: sixteen digits from f on are a negative one.
function hex(digits,    i, value, negative) {
    negative = length(digits) == 16 && digits ~ /^f/
    if (length(digits) > 8) digits = substr(digits, length(digits) - 7)
    for (i = 1; i <= length(digits); i++)
        value = 16 * value + index("0123456789abcdef", substr(digits, i, 1)) - 1
    return negative ? value - 4294967296 : value
}
function bound(f,    deepest, i, callee, b) {
    if (f in known) return known[f]
    if (f in member) return known[f] = around()
    if (f in open) {
        wrong(f, "it reaches itself")
        return 0
    }
    open[f] = 1
    deepest = calls[f] ? 0 : 128
    for (i = 1; i <= calls[f]; i++) {
        callee = called[f, i]
        if (!(callee in frame)) {
            wrong(f, "it calls " callee ", which is not in the archive")
            continue
        }
        b = bound(callee)
        if (b > deepest) deepest = b
    }
    delete open[f]
    return known[f] = 8 + frame[f] + deepest
}
# What the cycle needs, entered anywhere.
function around(    f, i, callee, b, largest, deepest) {
    deepest = 128
    for (f in member) {
        if (!(f in frame)) continue
        if (8 + frame[f] > largest) largest = 8 + frame[f]
        for (i = 1; i <= calls[f]; i++) {
            callee = called[f, i]
            if (callee in member) continue
            if (!(callee in frame)) {
                wrong(f, "it calls " callee ", which is not in the archive")
                continue
            }
            b = bound(callee)
            if (b > deepest) deepest = b
        }
    }
    return (allowance + 1) * largest + deepest
}
function add(callee) {
    called[name, ++calls[name]] = callee
}
{
    # a call or a jump whose place the assembler knew has no line R_X86_64_ after it
    if (resolved != "" && !/R_X86_64_/) add(resolved)
    resolved = ""
}
/^[0-9a-f]+ <.*>:$/ {
    name = $0
    sub(/^[^<]*</, "", name)
    sub(/>:$/, "", name)
    frame[name] = 0
    next
}
/R_X86_64_/ {
    # what refers to code is a call, or a jump that ends in one
    callee = $NF
    sub(/[-+]0x[0-9a-f]+$/, "", callee)
    if (callee ~ /^\.text\./) sub(/^\.text\./, "", callee)
    else if ($0 !~ /R_X86_64_PLT32/) next
    add(callee)
    next
}
$2 ~ /^(call|j)/ && / <.*>$/ {
    callee = $0
    sub(/^.* </, "", callee)
    sub(/(\+0x[0-9a-f]+)?>$/, "", callee)
    if ($2 ~ /^call/ || callee != name) resolved = callee
}
$2 ~ /^call/ && /\*/ { wrong(name, "a call through a register") }
$2 ~ /^push/ { frame[name] += 8 }
$2 ~ /^(enter|leave)/ || /pop +%rsp$/ { wrong(name, "not accounted for: " $0) }
/,%rsp$/ {
    value = $3
    sub(/^\$0x/, "", value)
    sub(/,%rsp$/, "", value)
    if ($2 !~ /^(sub|add)q?$/ || value !~ /^[0-9a-f]+$/) {
        wrong(name, "not accounted for: " $0)
        next
    }
    value = $2 ~ /^sub/ ? hex(value) : -hex(value)
    if (value > 0) frame[name] += value
}
END {
    if (resolved != "") add(resolved)
    for (f in frame) if (f ~ /^agreement_/) {
        most = bound(f)
        printf "%-25s needs at most %5d bytes of stack\n", f, most | "sort"
        if (most > limit) wrong(f, "more than AGREEMENT_STACK, " limit " bytes")
        found++
    }
    close("sort")
    if (!found) wrong("the archive", "no function found")
    exit bad
}
