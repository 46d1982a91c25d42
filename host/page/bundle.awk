# Modules of JavaScript as one script: each in a scope of its own, with what it imports in front and what it exports handed on. The modules are given in an order in which each stands behind
# those that it imports.
function name_of(path) {
    sub(/.*\//, "", path)
    sub(/\.js$/, "", path)
    return path
}
function closed() {
    if (module != "")
        printf "    return { %s };\n})();\n", exported
}
FNR == 1 {
    closed()
    module = name_of(FILENAME)
    exported = ""
    printf "modules.%s = (() => {\n", module
}
/^import / {
    from = $0
    sub(/.* from '\.\//, "", from)
    sub(/\.js';$/, "", from)
    sub(/ from .*/, "")
    sub(/^import /, "const ")
    # Another name is given by a colon here.
    gsub(/ as /, ": ")
    print $0 " = modules." from ";"
    next
}
/^export / {
    sub(/^export /, "")
    exported = exported (exported == "" ? "" : ", ") $2
}
{ print }
END { closed() }
