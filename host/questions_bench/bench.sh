#!/bin/sh
# bench.sh [SCRATCH]: the figures for whole questions of docs/SPEED.md. Not part of the gate. Needs rt, cc, python3 and valgrind.
set -e
here=$(cd "$(dirname "$0")" && pwd)
root=$(cd "$here/../.." && pwd)
scratch=${1:-$(mktemp -d)}
"$root/host/staticlib.sh"
cc -O2 -Wall -Wextra -Werror -o "$scratch/bench" "$here/bench.c" "${TSCONFIG_QUESTIONS_LIB:-$root/target/staticlib/libquestions.a}"
python3 "$here/books.py" "$scratch"
for name in typical led workspace limits led-limits wide ladder; do
    while IFS= read -r line; do
        instructions=$(valgrind --tool=callgrind --toggle-collect=question --callgrind-out-file=/dev/null "$scratch/bench" once "$scratch/$name.cmd" "$scratch/$name.txt" "$line" 2>&1 | sed -n 's/.*Collected : //p')
        answer=$("$scratch/bench" once "$scratch/$name.cmd" "$scratch/$name.txt" "$line")
        echo "$name | $line | $answer | $instructions instructions | $("$scratch/bench" time "$scratch/$name.cmd" "$scratch/$name.txt" "$line") ns"
    done <"$scratch/$name.ask"
done
