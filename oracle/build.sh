#!/bin/sh
# Builds the oracle. Usage: oracle/build.sh DIR [words for cargo build]
# DIR is the folder of alum's files: it holds element.rs, or src/element.rs, or src--src--element.rs.txt.
# Without further words: --release. The output goes to $CARGO_TARGET_DIR, or else to oracle/target.
set -eu
oracle=$(cd "$(dirname "$0")" && pwd)
ALUM_SRC=$(cd "${1:?usage: oracle/build.sh DIR}" && pwd)
export ALUM_SRC
shift
[ $# -gt 0 ] || set -- --release
target=${CARGO_TARGET_DIR:-$oracle/target}
if [ "$(realpath -m "$target")" = "$(realpath -m "$oracle/../target")" ]; then
    echo "build.sh: the repository's own target/ is not for the oracle; choose another CARGO_TARGET_DIR" >&2
    exit 2
fi
cargo build --manifest-path "$oracle/Cargo.toml" --target-dir "$target" --offline --locked "$@"
