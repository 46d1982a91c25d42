# shellcheck shell=bash disable=SC2034 # words are for those who source it
# crates.txt, what a crate is proved of, and what the kit's compiler is told of it. Sourced behind common.sh, with rt at hand.
kit=$(dirname "$(rt doc)")
kit_line=$(rt version)

# listed: a line "NAME: DEP DEP .." for each crate.
listed() {
    sed -n -e 's/#.*//' -e 's/^ *\([A-Za-z_0-9]*\)[^:]*:/\1:/p' crates.txt
}

# uses CRATE: what its line names.
uses() {
    listed | sed -n "s/^$1: *//p"
}

# reached CRATE: the crates of the repository that it reaches, each behind those that it uses, itself last. Names without a line are libraries of the kit.
reached() {
    listed | awk -v top="$1" '
        function reach(name,    count, used, i) {
            if (!(name in line) || seen[name]++)
                return
            count = split(line[name], used, " ")
            for (i = 1; i <= count; i++)
                reach(used[i])
            print name
        }
        { name = $1; sub(/:.*/, "", name); sub(/^[^:]*:/, ""); line[name] = $0 }
        END { reach(top) }'
}

# below CRATE: the same without itself.
below() {
    reached "$1" | sed '$d'
}

# all_below CRATES..: what any of them reaches beside itself, each once, each behind those that it uses.
all_below() {
    local name
    for name; do
        below "$name"
    done | awk '!met[$0]++'
}

# rlib CRATE: its library.
rlib() {
    echo "$PWD/crates/$1/out/rlib/$1.rlib"
}

# words_for CRATE: sets `words` to what `rattle` is given to check or build it, in its folder or in a copy of that. They are those of `rt`, which has no word for another toolchain or a copy.
words_for() {
    local name root=src/lib.rt
    [[ ! -f crates/$1/src/main.rt ]] || root=src/main.rt
    words=(--crate-name "$1" "$root" --extern "std=$kit/rlibs/std.rlib" -L "dependency=$kit/rlibs")
    for name in $(uses "$1"); do
        if [[ -d crates/$name ]]; then
            words+=(--extern "$name=$(rlib "$name")")
        else
            words+=(--extern "$name=$kit/rlibs/$name.rlib")
        fi
    done
    for name in $(below "$1"); do
        words+=(-L "dependency=$(dirname "$(rlib "$name")")")
    done
    words+=(--antt-project "$kit/rattle/logic/antt-project.json" --logic-built "$kit/logic_built" --links "$1=")
    ! grep -q "^ *$1 *staticlib" crates.txt || words+=(--crate-type staticlib)
}

# digest_of CRATE: the digest of all that a crate is proved of: the kit, the crate and those that it reaches, and what crates.txt says of them. A date is no part of it.
digest_of() {
    local name part names parts=()
    names=$(reached "$1")
    [[ -n $names ]] || stop "crates.txt does not list $1"
    for name in $names; do
        for part in src specs proofs; do
            [[ ! -d crates/$name/$part ]] || parts+=("crates/$name/$part")
        done
    done
    {
        echo "$kit_line"
        for name in $names; do
            sed -n "s/ *#.*//; /^ *${name}[ :]/p" crates.txt
        done
        find "${parts[@]}" -type f -print0 | sort -z | xargs -0 sha256sum
    } | sha256sum | cut -c 1-64
}
