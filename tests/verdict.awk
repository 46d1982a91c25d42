# What the log of a check says of an edit, in one line: a word, and the first error that shows it with its place.
#
#   awk -v changed="FILE.." -v function_name=FUNCTION -f tests/verdict.awk LOG
#
# refused     the prover read all of it and did not prove it
# formal      the same, but only since a proof names what is gone, or takes a step's facts where another's stand now
# unread      a text of src/, specs/ or a changed file could not be read
# unreached   there is no verdict that it is not proved
#
# changed are the files that the edit changes. With a function only what is said of that one counts: the errors in its proof, or the notes in front of the line that says that it has none.

# without_code TEXT: what a message says beside the names in it.
function without_code(text) {
    gsub(/`[^`]*`/, "", text)
    return text
}

# Whether the error is in a text of src/ or specs/, or in a file that the edit changes.
function in_edited(    file) {
    file = $1
    sub(/^\.\//, "", file)
    sub(/:[0-9]+:[0-9]+:$/, "", file)
    return file ~ /^(src|specs)\// || index(" " changed " ", " " file " ")
}

# Where antt can't read such a text: it says so without a declaration in front, as it does of what depends on one that it can't read, or that a name or a word is wrong. An edit that
# only makes something false reads well.
function unreadable(    said) {
    said = $0
    sub(/^[^ ]+ error: /, "", said)
    if (!sub(/^`[^`]*`: /, "", said))
        return 1
    return without_code(said) ~ /is not in scope|has no field|is no name|operand is missing|expected the end|cannot continue|has no +that can be named/
}

# Whether an error only says that code has other steps than its proof: their records are the capitals of a function's Lts.
function is_formal() {
    return /^(note: )?(\.\/)?proofs\// && (/has no field|is not in scope|has no `|was not admitted|which was rejected/ || /where one has `[^` ]*\.Lts\.[A-Z]/)
}

function keep(line) {
    if (formal_line)
        formal = formal == "" ? line : formal
    else
        refused = refused == "" ? line : refused
}

BEGIN {
    proof = function_name
    sub(/^[^:]*::/, "", proof)
    gsub(/::/, "/", proof)
}

{ last = $0 }

/^[^ ]+:[0-9]+:[0-9]+: error: / && in_edited() {
    if (there == "")
        there = $0
    if (unreadable())
        unread = 1
}

# An error in a proof, or at any other place, which counts where no function is asked for.
/^[^ ]+:[0-9]+:[0-9]+: error/ {
    formal_line = is_formal()
    if (function_name == "" || index($0, "proofs/" proof "/"))
        keep($0)
}

/^[a-z]*(\[[a-z-]*\])?: / && /^(error|warning)/ && first == "" { first = $0 }

# A function without a proof file: notes say what is not proved, then the line of the function.
/^note: [^ ]+:[0-9]+:[0-9]+: / {
    formal_line = 0
    if (function_name == "")
        keep(substr($0, 7))
    else if (note == "")
        note = substr($0, 7)
}

/^(fn|struct|enum|impl|trait) / {
    if (function_name != "" && index($0, "fn " function_name ": no proof: ") == 1)
        refused = refused != "" ? refused : note != "" ? note : $0
    if (function_name == "" && /^fn [^ ]*: no proof: / && other == "")
        other = $0
    note = ""
}

END {
    if (last !~ /^logic=not-proved/) print "unreached " (first != "" ? first : last)
    else if (unread) print "unread " there
    else if (refused != "") print "refused " refused
    else if (formal != "") print "formal " formal
    else print "refused " (other != "" ? other : last)
}
