#!/bin/sh
# Builds the oracle and works out every recorded case again. Usage: oracle/replay.sh DIR     (DIR as for build.sh)
# The last line is "N cases, D differences"; the exit status is 0 exactly if D is 0.
set -eu
oracle=$(dirname "$0")
ALUM_SRC=$(cd "${1:?usage: oracle/replay.sh DIR}" && pwd)
export ALUM_SRC
"$oracle/build.sh" "$ALUM_SRC"
ORACLE=${CARGO_TARGET_DIR:-$oracle/target}/release/oracle
export ORACLE
set --
for name in schemes edits check refusals; do
    set -- "$@" "$oracle/vectors/$name.txt"
done
exec python3 -B "$oracle/py/replay.py" "$@"
