#!/usr/bin/env bash
# Proves the crate tarhuspo_c and those below it, and writes the static library to target/staticlib/libtarhuspo.a. What earlier
# checks have proved is not proved again. If a proof fails, there is no archive.
set -euo pipefail
cd "$(dirname "${BASH_SOURCE[0]}")/.."

archive=target/staticlib/libtarhuspo.a
rm -f "$archive"
if ! command -v rt >/dev/null; then
    echo "tools/staticlib.sh: \`rt\` of the Rattle kit is not on the PATH" >&2
    exit 1
fi
# For every x86-64: the kit's default is x86-64-v2.
(cd crates/tarhuspo_c && rt lib --cpu=x86-64)
mkdir -p "$(dirname "$archive")"
cp crates/tarhuspo_c/out/libtarhuspo_c.a "$archive"
