#!/bin/sh
# dev.sh CRATE [FLAGS..]: `rt check` of a crate with only what matters: no offered files, no names to cite, long names cut. The whole log is target/dev-CRATE.log.
cd "$(dirname "$0")/.." || exit 1
crate=$1
shift
mkdir -p target
(cd "crates/$crate" && rt check "$@") >"target/dev-$crate.log" 2>&1
awk '/^help: write/ { print; skip = 1; next }
     skip && /^    / { next }
     /names you can use/ { names = 1; skip = 0; next }
     names && /^  [|] / { next }
     { skip = 0; names = 0; print }' "target/dev-$crate.log" |
    grep -v -e ': proved$' -e '^checked ' -e '^so far: ' -e '^logic /' -e '^library ' -e '^statements ' -e '^rt: ' |
    sed -E 's/Rattle\.[a-z_0-9]+\.(specs|proofs)\.[A-Za-z_.0-9]*\.([A-Za-z_◌])/\2/g; s/\b(borrow|denote|mir|lib|mathlib|native|Prim)\.[A-Za-z.]*\.([A-Za-z◌])/\2/g' |
    cut -c "1-${W:-1500}" | head -n "${N:-80}"
