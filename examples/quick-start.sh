#!/usr/bin/env bash
# Shows the main job of tpcc twice: first with a program that is built without its proofs in a minute or two, and then with
# the proved one. The files that it writes stay in examples/out. Ctrl-C ends the script at any time.
set -euo pipefail
cd "$(dirname "${BASH_SOURCE[0]}")/.."
top=$PWD
made=examples/out
rm -rf "$made/cases" "$made/shown"
mkdir -p "$made/cases" "$made/shown"

names=(1-run 2-replay 3-check)
declare -A words=(
    [1-run]="run examples/one-warehouse.csv examples/mixed-session.csv examples/names-session.csv --log $made/log.csv"
    [2-replay]="replay examples/one-warehouse.csv $made/log.csv --tables $made/tables.csv"
    [3-check]="check $made/tables.csv"
)

say() {
    printf '\n== %s\n' "$*"
}

# Prints a command with its output and the file that it wrote.
show() {
    say "tpcc ${words[$1]}"
    cat "$made/shown/$1"
    case $1 in
    1-run)
        say "The log, $made/log.csv: the requests that were carried out, in order, with their replies"
        cat "$made/log.csv"
        ;;
    2-replay)
        say "The tables at the end, $made/tables.csv: the lines that differ from examples/one-warehouse.csv"
        diff examples/one-warehouse.csv "$made/tables.csv" || true
        ;;
    esac
}

# Prints the name of each library once it is proved, until this script ends.
report_proved() {
    local printed=" " library name
    while kill -0 $$ 2> /dev/null; do
        for library in crates/*/out/rlib/*.rlib; do
            name=$(basename "$library" .rlib)
            if [ -e "$library" ] && [[ $printed != *" $name "* ]]; then
                printed+="$name "
                echo "   proved: $name, after $SECONDS s"
            fi
        done
        sleep 2
    done
}

say "Building tpcc without its proofs, which takes a minute or two on a free machine"
for name in "${names[@]}"; do
    : > "$made/cases/$name"
    for word in ${words[$name]}; do
        case $word in examples/*) word=$top/$word ;; esac
        echo "$word"
    done > "$made/cases/$name.args"
done
(cd crates/tpcc && rt try --seconds 600 --cases "$top/$made/cases") > "$made/printed" 2> "$made/told" || true
grep -q "^cases=${#names[@]} ended=${#names[@]} " "$made/told" || {
    cat "$made/told"
    exit 1
}
for name in "${names[@]}"; do
    awk -v name="$name" '/^== / { on = $2 == name; next } on' "$made/printed" > "$made/shown/$name"
    show "$name"
done

say "NOTHING IS PROVED of the program that has just run: it was built to be seen soon, with checks as it runs, and is gone."
echo "   Next, every crate that tpcc stands on is proved, and then tpcc itself. This takes more than an hour on four"
echo "   processors, longer beside other work, and seconds if it was done before. The first line comes after some minutes."
echo "   Ctrl-C ends the script; the proofs that are finished by then are kept."
SECONDS=0
report_proved &
reporter=$!
(cd crates/tpcc && rt run -- run ../../examples/one-warehouse.csv ../../examples/mixed-session.csv \
    ../../examples/names-session.csv --log "../../$made/log.csv") > "$made/shown/1-run"
kill "$reporter"

say "PROVED: the same job with crates/tpcc/out/tpcc, which stays"
show 1-run
for name in 2-replay 3-check; do
    # shellcheck disable=SC2086
    crates/tpcc/out/tpcc ${words[$name]} > "$made/shown/$name"
    show "$name"
done
