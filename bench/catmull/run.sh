#!/bin/sh
# Times the library's Catmull-Clark call against the Rust. Usage: bench/catmull/run.sh DIR     (DIR as for oracle/build.sh)
# `tests/archive.sh` comes first.
set -eu
here=$(cd "$(dirname "$0")" && pwd)
ALUM_SRC=$(cd "${1:?usage: bench/catmull/run.sh DIR}" && pwd)
export ALUM_SRC
target=${CARGO_TARGET_DIR:-$here/target}
cargo build --manifest-path "$here/Cargo.toml" --target-dir "$target" --offline --locked --release
exec "$target/release/catmull"
