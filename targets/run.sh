#!/usr/bin/env bash
# Recompiles the proved module for other machines, runs the test program on each and compares what it prints with what it prints on x86-64. Arguments: names of machines; without any, all.
# A machine whose tools are missing is skipped, with the names of their Debian packages; that fails nothing, a difference does. With cortex_m4 go the firmware of examples/cortex-m4, plain C of the same formulas and what docs/c.md says of the stack.
set -euo pipefail
. "$(dirname "$0")/../host/common.sh"
to=$target/targets
. targets/machines.sh
[[ $# -gt 0 ]] || set -- "${machines[@]}"
for machine; do
    [[ " ${machines[*]} " == *" $machine "* ]] || stop "targets: $machine is not one of: ${machines[*]}"
done

need gcc "the test program is compiled for x86-64 too"
targets/module.sh
gcc "${strict[@]}" "${program[@]}" targets/stdio.c "$target/staticlib/libgauge_line.a" -o "$to/x86_64"
"$to/x86_64" >"$to/x86_64.txt"
echo "x86_64: $(wc -l <"$to/x86_64.txt") lines"

same=0 different=0 skipped=0
for machine; do
    missing=$("${machine}_needs" | xargs)
    if [[ -n $missing ]]; then
        skip "$machine" "not installed: $missing"
        skipped=$((skipped + 1))
    elif "${machine}_prints" >"$to/$machine.txt" && targets/compare.sh "$to/x86_64.txt" "$to/$machine.txt"; then
        echo "$machine: same as x86_64"
        same=$((same + 1))
    else
        echo "$machine: DIFFERENT from x86_64, or not run: $(shown "$to/$machine.txt")"
        different=$((different + 1))
    fi
done
echo "targets: $same same, $different different, $skipped skipped"
[[ $different -eq 0 ]]
if [[ " $* " == *" cortex_m4 "* ]]; then
    examples/cortex-m4/run.sh
    targets/beside_plain.sh
    awk -f targets/stack.awk "$target/firmware/table.md" docs/c.md
fi
