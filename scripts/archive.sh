#!/usr/bin/env bash
# Builds the proved archive that C and Rust hosts link, target/staticlib/libtapecard.a: `make archive`. Only what is proved is built.
set -euo pipefail
cd "$(dirname "$0")/.."

(cd crates/tapecard_c && rt lib)
mkdir -p target/staticlib
cp crates/tapecard_c/out/libtapecard_c.a target/staticlib/libtapecard.a

# docs/INTERFACE.md says what the archive asks of its surroundings; held to that where there is an nm that reads it.
asked=$(nm -u target/staticlib/libtapecard.a 2>/dev/null | awk '$1 == "U" { print $2 }' | sort -u | paste -sd ' ' -) || asked=""
if [ -n "$asked" ] && [ "$asked" != "memcpy memset" ]; then
    echo "archive: it asks its surroundings for $asked; docs/INTERFACE.md says memcpy and memset alone" >&2
    exit 1
fi
