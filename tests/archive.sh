#!/bin/sh
# Proves crates/exports_c and writes the static library that C and Rust programs link, target/staticlib/libexports.a. Run in the repository's folder.
set -e
(cd crates/exports_c && rt lib)
mkdir -p target/staticlib
cp crates/exports_c/out/libexports_c.a target/staticlib/libexports.a
