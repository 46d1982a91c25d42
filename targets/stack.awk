# Holds the figures of docs/c.md to the table of an archive for Cortex-M4F: each is the stack of that function in KB, rounded up to a tenth, and that of any other function the most of the rest.
#
#   awk -f targets/stack.awk target/firmware/table.md docs/c.md

BEGIN { FS = " *[|] *" }

# A row of the table: name, code, frame, stack. A layout's number at the end of a name is not in C's.
FILENAME ~ /table\.md$/ && $2 ~ /^`gauge_raw_/ {
    name = $2
    gsub(/`/, "", name)
    sub(/_[0-9]+$/, "", name)
    stack[name] = $5
}

# GaugePolyphaseResamp_reset is gauge_raw_polyphase_resamp_reset.
function raw(name,    at) {
    sub(/^Gauge/, "", name)
    while (at = match(name, /[A-Z]/))
        name = substr(name, 1, at - 1) "_" tolower(substr(name, at, 1)) substr(name, at + 1)
    return "gauge_raw" name
}

function hold(what, figure, bytes,    tenths) {
    tenths = int((10 * bytes + 1023) / 1024)
    if (10 * figure != tenths)
        wrong(what " takes " bytes " bytes of stack, " tenths / 10 " KB")
}

function wrong(why) {
    print "docs/c.md: " why > "/dev/stderr"
    failed = 1
}

/^[|] call [|] at most [|]$/ { figures = 1 }
!NF || /^$/ { figures = 0 }

figures && $2 ~ /^`Gauge/ {
    split($2, part, "`")
    name = raw(part[2])
    if (!(name in stack))
        wrong("the archive has no " name)
    hold(part[2], $3, stack[name])
    delete stack[name]
    said++
}

figures && $2 == "any other" {
    for (name in stack)
        if (stack[name] > most)
            most = stack[name]
    hold("any other", $3, most)
    said++
}

END {
    if (said < 2)
        wrong("no figures")
    exit failed
}
