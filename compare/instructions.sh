#!/bin/bash
# Instructions per command, the proved library beside the plain board, for the sheets of a folder and of each folder in it.
# Usage: compare/instructions.sh DIR. It needs valgrind and `cargo build --release --offline --features linked`.
#
# Each side runs one lap and then five under callgrind. The difference is four laps: what the program does before
# and after them is in both counts.
set -euo pipefail
[ $# = 1 ] || { echo "usage: $0 DIR" >&2; exit 1; }
program=$(dirname "$0")/target/release/compare

counted() { # SIDE FOLDER LAPS
    valgrind --tool=callgrind --callgrind-out-file=/dev/null "$program" laps "$@" 2>&1 | sed -n 's/.*Collected : *//p'
}

in_four_laps() { # SIDE FOLDER
    echo $(($(counted "$1" "$2" 5) - $(counted "$1" "$2" 1)))
}

printf '%-14s %6s %8s %9s %8s %6s\n' folder sheets commands ours plain ratio
for folder in "$1" "$1"/*/; do
    compgen -G "$folder/*.sheet" > /dev/null || continue
    read -r _ sheets _ commands < <("$program" laps ours "$folder" 0)
    ours=$(in_four_laps ours "$folder")
    plain=$(in_four_laps plain "$folder")
    awk -v name="$(basename "$folder")" -v sheets="$sheets" -v commands="$commands" -v ours="$ours" -v plain="$plain" '
        function per_command(count) { return commands ? sprintf("%.1f", count / 4 / commands) : "-" }
        BEGIN {
            printf "%-14s %6d %8d %9s %8s %6.2f\n", name, sheets, commands, per_command(ours), per_command(plain), ours / plain
        }'
done
