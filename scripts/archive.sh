#!/usr/bin/env bash
# Makes the archive of a static library, crates/NAME/out/libNAME.a, over the libraries that `rt ci` has just proved here and left in out/: in the time of the
# crate's own check, where `rt lib` would prove all that it stands on again. Right after `rt ci` alone it is known that these libraries are of today's sources.
#     scripts/archive.sh NAME
set -euo pipefail
cd "$(dirname "${BASH_SOURCE[0]}")/.."
name=$1
kit=$(dirname "$(rt doc)")

# The names on a crate's line of crates.txt, and all crates of the repository that it stands on.
uses() { sed -nE "s/^$1( [^:]*)?:(.*)/\2/p" crates.txt; }
below() {
    awk -F: -v todo="$1" '
        !/^#/ && NF == 2 { split($1, words, " "); deps[words[1]] = $2 }
        END {
            while (split(todo, names, " ")) {
                todo = ""
                for (i in names) if (names[i] in deps && !seen[names[i]]++) todo = todo " " deps[names[i]]
            }
            for (crate in seen) print crate
        }' crates.txt
}

words=(--extern "std=$kit/rlibs/std.rlib" -L "dependency=$kit/rlibs")
for crate in $(uses "$name"); do
    library=../$crate/out/rlib/$crate.rlib
    [ -d "crates/$crate" ] || library=$kit/rlibs/$crate.rlib
    words+=(--extern "$crate=$library")
done
for crate in $(below "$name"); do
    [ "$crate" = "$name" ] || words+=(-L "dependency=../$crate/out/rlib")
done
words+=(--antt-project "$kit/rattle/logic/antt-project.json" --logic-built "$kit/logic_built" --toolchain "$kit/toolchain" --jobs "$(nproc)")

cd "crates/$name"
mkdir -p out
said=$("$kit/bin/rattle" build --crate-name "$name" src/lib.rt "${words[@]}" --crate-type staticlib --backend llvm -o "out/lib$name.a" 2>&1) || {
    printf '%s\n' "$said" >&2
    exit 1
}
