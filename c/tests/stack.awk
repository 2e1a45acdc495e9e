# The most bytes of stack that each function of an archive takes, from `objdump -dr`: the return address, every push and
# every subtraction in it, bytes used below the stack pointer, and the deepest function that it calls. memset is left out.
function hex(s,   i, n) {
    n = 0
    for (i = 1; i <= length(s); i++) n = 16 * n + index("0123456789abcdef", substr(s, i, 1)) - 1
    return n
}
function deepest(f,   i, d, most) {
    most = below[f]
    for (i = 1; i <= calls[f]; i++) {
        d = deepest(callee[f, i])
        if (d > most) most = d
    }
    return 8 + frame[f] + most
}
/^[0-9a-f]+ <.*>:$/ { name = $2; gsub(/[<>:]+$/, "", name); sub(/^</, "", name); order[++functions] = name }
/\tpush / { frame[name] += 8 }
/\tsub +\$0x[0-9a-f]+,%rsp/ { match($0, /\$0x[0-9a-f]+/); frame[name] += hex(substr($0, RSTART + 3, RLENGTH - 3)) }
/\t(alloca|enter|and +\$.*,%rsp)/ { print "stack: not understood: " $0; exit 1 }
/-0x[0-9a-f]+\(%rsp/ {
    match($0, /-0x[0-9a-f]+\(%rsp/)
    bytes = hex(substr($0, RSTART + 3, RLENGTH - 8))
    if (bytes > below[name]) below[name] = bytes
}
/R_X86_64_PLT32/ {
    other = $3
    sub(/-0x[0-9a-f]+$/, "", other)
    sub(/^\.text\./, "", other)
    if (other != "memset") callee[name, ++calls[name]] = other
}
END {
    for (i = 1; i <= functions; i++)
        if (order[i] ~ /^rondo_/) { d = deepest(order[i]); print order[i], d; if (d > most) most = d }
    print "most", most + 0
}
