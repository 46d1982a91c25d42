# Prints the calls of an LLVM module, a line "CALLER CALLEE" for each. Fails where one goes through a pointer or to the caller itself: then no stack is a fixed number.

# name TEXT: the first name behind an @ in the text, without quotes.
function name(text) {
    sub(/^[^@]*@/, "", text)
    if (text ~ /^"/) {
        text = substr(text, 2)
        sub(/".*/, "", text)
    } else
        sub(/[^A-Za-z0-9_.$].*/, "", text)
    return text
}

/^define / { caller = name($0) }

/^ .* call / || /^ +call / {
    sub(/^.*call /, "")
    head = $0
    sub(/\(.*/, "", head)
    if (head !~ /@/ || name($0) == caller) {
        print "calls: " caller " calls " $0 > "/dev/stderr"
        exit 1
    }
    if (name($0) !~ /^llvm\./)
        print caller, name($0)
}
