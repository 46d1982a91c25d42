#!/usr/bin/env bash
# Makes target/page/gauge.html: the page with the proved module as wasm, its script and its style in one file. The module is that of the archive, compiled for wasm32 as targets/ does.
set -euo pipefail
. "$(dirname "$0")/../common.sh"
to=$target/page
from=host/page

# exports: a word for the linker for each function that the page calls by its declaration.
exports() {
    sed -n 's/^    \(gauge_raw_[a-z0-9_]*\): \[.*/-Wl,--export=\1/p' "$from/src/declarations.js"
}

# ordered: the modules, each behind those that it imports.
ordered() {
    local one
    for one in "$from"/src/*.js; do
        echo "$one $one"
        sed -n "s|^import .* from '\./\(.*\)';|$from/src/\1 $one|p" "$one"
    done | tsort
}

# with NAME FILE: puts the file in the place of the comment of this name.
with() {
    sed -e "\|^/\* $1 \*/\$|{
        r $2
        d
    }"
}

# The module's exports and what it is compiled of; where they are the same it stays.
made_of() {
    cat "$target/targets/made_of" "$from/src/declarations.js" targets/recompile.sh targets/anywhere.sed targets/wasm32/multi3.c "$from/build.sh" | sha256sum
}

compiled() {
    local words bin=$target/targets/bin
    targets/recompile.sh wasm32-unknown-unknown "$to/module.o"
    mapfile -t words < <(exports)
    PATH=$bin:$PATH "$bin/clang" --target=wasm32-unknown-unknown --no-default-config -std=c99 -O2 -Itargets/wasm32 -nostdlib \
        -Wl,--no-entry,--strip-all,--export=__heap_base,-z,stack-size=262144 "${words[@]}" targets/wasm32/multi3.c "$to/module.o" -o "$to/gauge.wasm"
    rm "$to"/module.{o,ll}
    made_of >"$to/made_of"
}

mkdir -p "$to"
targets/module.sh
[[ -f $to/gauge.wasm && $(made_of) == "$(cat "$to/made_of" 2>/dev/null)" ]] || compiled

mapfile -t modules < <(ordered)
{
    echo "'use strict';"
    echo "const VERSION = '$(<VERSION)';"
    echo "const WASM = '$(base64 -w 0 "$to/gauge.wasm")';"
    echo "const modules = {};"
    awk -f "$from/bundle.awk" "${modules[@]}"
    echo "modules.main.start(WASM, VERSION);"
} >"$to/script.js"
with style "$from/style.css" <"$from/index.html" | with script "$to/script.js" >"$to/gauge.html.new"
mv "$to/gauge.html.new" "$to/gauge.html"
rm "$to/script.js"
echo "$(shown "$to/gauge.html")  the page: open it in a browser; docs/page.md says what it shows"
