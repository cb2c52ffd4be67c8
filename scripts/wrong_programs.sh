#!/usr/bin/env bash
# Tries all wrong programs of the crates named, or of every crate: those of must-fail/, which the gate tries, and those of must-fail-more/.
#     scripts/wrong_programs.sh [CRATE..]
# The exit status is that of `rt must-fail`, which says of each what the checker said: 0 only where each was refused.
set -euo pipefail
cd "$(dirname "${BASH_SOURCE[0]}")/.."
copy=$(mktemp -d)
trap 'rm -rf "$copy"' EXIT

# A copy outside the checkout, in which all of them stand where rt looks. What checks kept here rt finds by itself.
tar -cf - --exclude='crates/*/out' crates.txt crates | tar -xf - -C "$copy"
[ ! -e HANDLES ] || cp HANDLES "$copy"
for more in "$copy"/crates/*/must-fail-more; do
    [ -d "$more" ] || continue
    edits=$(dirname "$more")/must-fail
    mkdir -p "$edits"
    # No two of a crate have one name, which a test holds too.
    mv -n "$more"/*.edit "$edits"
    rmdir "$more"
done
cd "$copy"
rt must-fail "$@"
