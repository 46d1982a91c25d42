# Makes the table of an archive from clang's stack usage file and from what readelf -SWrs says of its object, compiled with a section for each function.

# The frame of each function: FILE:NAME, bytes, and whether they are always the same.
FILENAME ~ /\.su$/ {
    split($0, field, "\t")
    sub(/^[^:]*:/, "", field[1])
    if (field[3] != "static")
        fail(field[1] " has no fixed frame")
    frame[field[1]] = field[2]
    next
}

# A section: [number] name type address offset size; sizes are in hex.
/^ *\[ *[0-9]+\] / {
    sub(/^ *\[ *[0-9]+\] +/, "")
    if ($1 ~ /^\.text/)
        code += hex($5)
    else if ($1 ~ /^\.rodata/)
        constants += hex($5)
    else if ($1 ~ /^\.ARM\.exidx/)
        unwinding += hex($5)
    else if ($1 ~ /^\.(data|bss)/)
        writable += hex($5)
}

/^Relocation section/ {
    caller = $3
    sub(/^'\.rel\.text\./, "", caller)
    sub(/'$/, "", caller)
}

# A call or jump to another function.
$3 ~ /^R_ARM_THM_(CALL|JUMP)/ && !((caller, $5) in seen) {
    seen[caller, $5] = 1
    calls[caller] = calls[caller] " " $5
}

# A symbol: number, value, size, type, bind, visibility, section, name.
$4 == "FUNC" && $7 != "UND" {
    size[$8] = $3
    if ($5 == "GLOBAL")
        exported[++count] = $8
    else
        shared[++others] = $8
}

function fail(why) {
    print "firmware: " why > "/dev/stderr"
    failed = 1
    exit 1
}

function hex(digits,    i, value) {
    for (i = 1; i <= length(digits); i++)
        value = 16 * value + index("0123456789abcdef", substr(digits, i, 1)) - 1
    return value
}

# The frame of a function and the deepest of those it calls; calls.awk and tsort have shown that they end.
function depth(name,    i, most, called, number) {
    number = split(calls[name], called, " ")
    for (i = 1; i <= number; i++)
        if (called[i] in frame && depth(called[i]) > most)
            most = depth(called[i])
    return frame[name] + most
}

# What a function and those it calls want from outside, each name once.
function outside(name,    i, called, number, names) {
    number = split(calls[name], called, " ")
    for (i = 1; i <= number; i++)
        names = names " " (called[i] in frame ? outside(called[i]) : called[i])
    return once(names)
}

function once(names,    i, word, number, met, list) {
    number = split(names, word, " ")
    for (i = 1; i <= number; i++)
        if (!(word[i] in met)) {
            met[word[i]] = 1
            list = list (list == "" ? "" : " ") word[i]
        }
    return list
}

function row(name) {
    if (!(name in frame))
        fail(name " has no frame")
    return sprintf("| `%s` | %d | %d | %d | %s |", name, size[name], frame[name], depth(name), outside(name))
}

function rows(title, names, number,    i) {
    printf "\n| %s | code | frame | stack | wants |\n|---|---|---|---|---|\n", title
    fflush()
    for (i = 1; i <= number; i++)
        print row(names[i]) | "sort"
    close("sort")
}

END {
    if (failed)
        exit 1
    if (count == 0)
        fail("no function found")
    print "# libgauge_line.a for Cortex-M4F\n"
    printf "%d bytes of code, %d of constants, %d of data that can be written; %d of entries for unwinding, which a program may drop.\n\n", code, constants, writable, unwinding
    print "All figures are bytes. Code and frame: the function's own. Stack: its frame and the deepest of the functions of the archive that it calls; none comes back to itself and no call goes"
    print "through a pointer, so no call takes more. Beside it there are the arguments, which are the caller's, and the stack of what the function wants from outside: the C library's and the"
    print "compiler's own routines."
    rows("exported", exported, count)
    rows("shared by them", shared, others)
}
