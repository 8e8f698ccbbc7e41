# Reads what `objdump -d --no-show-raw-insn` prints of a linked program, and prints the frame of each function of the library and, for
# each entry, the most bytes of stack that a chain of calls from it can take. A frame is what a function pushes and takes off the stack
# pointer, its return address, and what it uses below the stack pointer. A function that calls itself counts `deep` times: that is only
# `level` of double_moves, which plays a double's second, third and fourth die.

function bytes_of(hex,    i, n) {
    for (i = 1; i <= length(hex); i++)
        n = 16 * n + index("0123456789abcdef", substr(hex, i, 1)) - 1
    return n
}

# The most bytes from a function on. A chain that comes back to a function would have no bound.
function deepest(f,    i, n, next_one, most, names) {
    if (f in bound)
        return bound[f]
    if (f in entered) {
        print "a chain of calls comes back to " f >"/dev/stderr"
        failed = 1
        return 0
    }
    entered[f] = 1
    n = split(calls[f], names, "\n")
    for (i = 2; i <= n; i++)
        if (names[i] != f && (next_one = deepest(names[i])) > most)
            most = next_one
    delete entered[f]
    return bound[f] = (f in itself ? deep : 1) * frame[f] + (most > below_pointer[f] ? most : below_pointer[f])
}

/^[0-9a-f]+ <.*>:$/ {
    f = $0
    sub(/^[^<]*</, "", f)
    sub(/>:$/, "", f)
    frame[f] = 8
    order[++functions] = f
}
/[ \t]push +/ { frame[f] += 8 }
/[ \t]sub +\$0x[0-9a-f]+,%rsp/ {
    match($0, /\$0x[0-9a-f]+/)
    frame[f] += bytes_of(substr($0, RSTART + 3, RLENGTH - 3))
}
/[ \t,]-0x[0-9a-f]+\(%rsp/ {
    match($0, /-0x[0-9a-f]+\(%rsp/)
    used = bytes_of(substr($0, RSTART + 3, RLENGTH - 8))
    if (used > below_pointer[f])
        below_pointer[f] = used
}
/[ \t](call|jmp) +[0-9a-f]+ <[^+]*>$/ {
    to = $0
    sub(/.*</, "", to)
    sub(/>$/, "", to)
    if (to == f && $0 ~ /call/)
        itself[f] = 1
    calls[f] = calls[f] "\n" to
}
/[ \t]call +\*/ && f ~ /::|^munchalep_/ {
    print f " calls what a pointer says" >"/dev/stderr"
    failed = 1
}
END {
    print "Frames, in bytes:"
    for (i = 1; i <= functions; i++)
        if (order[i] ~ /::|^munchalep_/)
            printf "%-40s %5d\n", order[i], frame[order[i]] + below_pointer[order[i]]
    print "\nMost bytes of stack that an entry can take, by frames:"
    for (i = 1; i <= functions; i++)
        if (order[i] ~ /^munchalep_/)
            printf "%-40s %5d\n", order[i], deepest(order[i])
    exit failed
}
