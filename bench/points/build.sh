#!/bin/bash
# Proves timed/ over the library's crates in a copy of this repository, and leaves libtimed.a in out/. Then: cargo run --release --offline
# (timed/ has a `requires` on its exports, so it is no crate of the library: its files end in .in here.)
set -e
here=$(cd "$(dirname "$0")" && pwd); top=$(cd "$here/../.." && pwd)
copy=$(mktemp -d); trap 'rm -rf "$copy"' EXIT
cp -r "$top/crates" "$top/crates.txt" "$copy/"
cp -r "$here/timed" "$copy/crates/timed"
find "$copy/crates/timed" -name '*.in' | while read -r f; do mv "$f" "${f%.in}"; done
echo "timed staticlib: scope points_catmull points_triangles" >> "$copy/crates.txt"
(cd "$copy/crates/timed" && rt lib)
mkdir -p "$here/out"; cp "$copy/crates/timed/out/libtimed.a" "$here/out/"
