# The stack that each export uses at most, in bytes: "NAME BYTES".
# Input is `objdump -dr --no-show-raw-insn` of an archive for a kernel, on x86-64 or AArch64. A frame is
# what a function pushes and takes off the stack pointer; a call pushes 8 more on x86-64, that of the
# export itself too. What the host's memset and memcpy use is not in it.
function number(text,   base, i, n) { # 0x1f and 31 alike
    base = sub(/^0x/, "", text) ? 16 : 10
    for (i = 1; i <= length(text); i++) n = n * base + index("0123456789abcdef", substr(text, i, 1)) - 1
    return n
}
# The number that follows the mark, if the line has it; by how much the stack pointer goes down.
function down(mark, sign,   text) {
    if (!match($0, mark)) return
    text = substr($0, RSTART + RLENGTH)
    match(text, /^(0x)?[0-9a-f]+/)
    depth += sign * number(substr(text, 1, RLENGTH)) * (text ~ /lsl #12/ ? 4096 : 1)
    if (depth > frame[name]) frame[name] = depth
}
function deepest(of,   i, at, most) {
    if (++level > 50) {
        print "stack: no end of calls below " of > "/dev/stderr"
        exit 1
    }
    for (i = 1; i <= called[of]; i++) {
        at = address + deepest(callee[of, i])
        most = at > most ? at : most
    }
    level--
    return frame[of] + most
}
function goes_to(other) {
    sub(/[-+]0x[0-9a-f]+$/, "", other)
    if (other != name && other !~ /^mem(set|cpy|move|cmp)$/ && other != "__x86_return_thunk") callee[name, ++called[name]] = other
}
/file format elf64-x86-64/ { address = 8 }
/^[0-9a-f]+ <.*>:$/ {
    name = substr($0, index($0, "<") + 1)
    sub(/>:$/, "", name)
    depth = frame[name] = 0
    if (name ~ /^yelansub_/) exports[++count] = name
}
/\t(call|jmp|bl|b) / || /\t(bl|b)\t/ { if (match($0, /<.*>/)) goes_to(substr($0, RSTART + 1, RLENGTH - 2)) }
/R_(X86_64_PLT32|AARCH64_(CALL|JUMP)26)\t/ { goes_to($NF) }
/\tpush / { depth += 8; if (depth > frame[name]) frame[name] = depth }
/\tpop / { depth -= 8 }
{
    down("\tsub +\\$", / *,%rsp$/ ? 1 : 0)
    down("\tadd +\\$", / *,%rsp$/ ? -1 : 0)
    down("\tsub\tsp, sp, #", 1)
    down("\tadd\tsp, sp, #", -1)
    down("\tst[pr]\t.*\\[sp, #-", 1)
    down("\tld[pr]\t.*\\[sp\\], #", -1)
}
# Behind a return the function goes on where its frame is whole.
/\tret/ || /__x86_return_thunk/ { depth = frame[name] }
END {
    for (i = 1; i <= count; i++) print exports[i], address + deepest(exports[i])
}
