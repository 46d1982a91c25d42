# Which edits of a crate may be tried together: prints NUMBER NAME FUNCTION, edits of one number together, and 0 NAME for those to be tried alone.
#
#   awk -v crate=CRATE -v most=16 -v alone="NAME.." -f tests/edits.awk crates/CRATE/src/*.rt crates/CRATE/edits/*.edit
#
# A function is proved from its own body and from the contracts of those it calls. So an edit inside one body shows at that function, whatever is edited in bodies that it
# does not reach by calls. An edit of anything else, a contract, a constant, a definition, is tried alone.

{ line[FILENAME, FNR] = $0; lines[FILENAME] = FNR }
FNR == 1 { if (FILENAME ~ /\.edit$/) edits[++edit_count] = FILENAME; else sources[++source_count] = FILENAME }

function indent(text) {
    match(text, /^ */)
    return RLENGTH
}

# The names before a parenthesis in a body.
function called(file, from, to,    i, rest, names) {
    for (i = from; i <= to; i++) {
        rest = line[file, i]
        gsub(/::<[^>(]*>\(/, "(", rest)
        while (match(rest, /[a-z_][a-z_0-9]*\(/)) {
            names = names " " substr(rest, RSTART, RLENGTH - 1)
            rest = substr(rest, RSTART + RLENGTH)
        }
    }
    return names " "
}

function module(file) {
    sub(/.*\/src\//, "", file)
    sub(/\.rt$/, "", file)
    gsub(/\//, "::", file)
    return file == "lib" ? "" : file "::"
}

# The type of an impl, as the prover names it: of `impl<T: Table> Cascade<T> {` Cascade, of `impl Word for i16 {` I16Word.
function type_of(text,    parts) {
    sub(/^impl(<[^>]*>)? /, "", text)
    sub(/ \{$/, "", text)
    gsub(/<[^>]*>/, "", text)
    if (split(text, parts, " for ") < 2) return text
    return toupper(substr(parts[2], 1, 1)) substr(parts[2], 2) parts[1]
}

# Where the types of a file are declared: the prover names a method by its type's module, wherever it stands.
function types_of(file,    i, text) {
    for (i = 1; i <= lines[file]; i++) {
        text = line[file, i]
        if (!sub(/^(pub(\([a-z]+\))? )?(struct|enum) /, "", text)) continue
        sub(/[^A-Za-z0-9_].*/, "", text)
        declared_in[text] = module(file)
    }
}

# The functions of a file: name, as the prover has it, and the lines of the body.
function functions_of(file,    i, text, type, own, deep, opened) {
    for (i = 1; i <= lines[file]; i++) {
        text = line[file, i]
        if (text ~ /^impl[ <]/) {
            type = type_of(text)
            type = (type in declared_in ? declared_in[type] : module(file)) type "::"
        }
        else if (text == "}" && own == "") type = ""
        if (match(text, /^ *(pub(\([a-z]+\))? )?(extern "C" )?fn [a-z_0-9]+/)) {
            own = substr(text, 1, RLENGTH)
            sub(/.* /, "", own)
            deep = indent(text)
            opened = 0
        }
        if (own == "" || indent(text) != deep) continue
        if (!opened && text ~ /\{$/) opened = i
        else if (opened && text ~ /^ *\}$/) {
            function_count++
            named[function_count] = crate "::" (type == "" ? module(file) : type) own
            short[function_count] = own
            home[function_count] = file
            first[function_count] = opened + 1
            last[function_count] = i - 1
            calls[function_count] = called(file, opened, i)
            if (deep == 0) type = ""
            own = ""
        }
    }
}

# All functions that a function reaches by calls, by name; a name stands for every function that has it.
function reached(f,    all, grew, g) {
    all = calls[f]
    do {
        grew = 0
        for (g = 1; g <= function_count; g++)
            if (!(g in seen_by) && index(all, " " short[g] " ")) {
                seen_by[g]
                all = all calls[g]
                grew = 1
            }
    } while (grew)
    split("", seen_by)
    return all
}

# The function in whose body a text stands, or 0.
function body_with(file, old,    f, i) {
    for (f = 1; f <= function_count; f++)
        for (i = first[f]; home[f] == file && i <= last[f]; i++)
            if (index(line[file, i], old)) return f
    return 0
}

# The function in whose body alone an edit makes its changes, or 0.
function place(edit,    i, text, file, f, found) {
    for (i = 1; i <= lines[edit]; i++) {
        text = line[edit, i]
        if (text ~ /^file: /) file = "crates/" crate "/" substr(text, 7)
        if (text !~ /^old: /) continue
        f = body_with(file, substr(text, 6))
        if (!f || (found && found != f)) return 0
        found = f
    }
    return found
}

function apart(f, g) {
    return f != g && !index(reaches[f], " " short[g] " ") && !index(reaches[g], " " short[f] " ")
}

# The first group that has room for an edit of function f, none of whose functions it reaches or is reached by.
function group_for(f,    n, k, fits) {
    for (n = 1; n <= groups; n++) {
        fits = size[n] < most
        for (k = 1; fits && k <= size[n]; k++) fits = apart(f, member[n, k])
        if (fits) return n
    }
    return ++groups
}

# How many functions a function reaches.
function deep(f,    g, count) {
    for (g = 1; g <= function_count; g++) count += index(reaches[f], " " short[g] " ") > 0
    return count + 0
}

# Those that reach fewest come first: then there are no more groups than edits along some chain of calls.
END {
    for (i = 1; i <= source_count; i++) types_of(sources[i])
    for (i = 1; i <= source_count; i++) functions_of(sources[i])
    for (i = 1; i <= function_count; i++) reaches[i] = reached(i)
    for (i = 1; i <= function_count; i++) depth[i] = deep(i)
    for (i = 1; i <= edit_count; i++) {
        name[i] = edits[i]
        gsub(/.*\/|\.edit$/, "", name[i])
        edited[i] = index(" " alone " ", " " name[i] " ") ? 0 : place(edits[i])
        if (!edited[i]) print 0, name[i]
    }
    for (d = 0; d <= function_count; d++)
        for (i = 1; i <= edit_count; i++) {
            f = edited[i]
            if (!f || depth[f] != d) continue
            n = group_for(f)
            member[n, ++size[n]] = f
            print n, name[i], named[f]
        }
}
