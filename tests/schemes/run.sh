#!/bin/sh
# Random meshes through the static library, against the Rust. Usage: tests/schemes/run.sh DIR N SEED     (DIR as for oracle/build.sh)
# The last line is "N meshes, .. calls, D differences"; the exit status is 0 exactly if D is 0.
set -eu
here=$(cd "$(dirname "$0")" && pwd)
ALUM_SRC=$(cd "${1:?usage: tests/schemes/run.sh DIR N SEED}" && pwd)
export ALUM_SRC
target=${CARGO_TARGET_DIR:-$here/target}
cargo build --manifest-path "$here/Cargo.toml" --target-dir "$target" --offline --locked --release
exec "$target/release/schemes" "${2:?N}" "${3:?SEED}"
