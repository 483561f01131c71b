#!/usr/bin/env bash
# Proves and builds the library and the command, lists the sample, and audits the library against this machine's processor.
set -euo pipefail
cd "$(dirname "${BASH_SOURCE[0]}")/.."

echo "Proving and building: a few minutes the first time." >&2
cargo build --quiet --release --offline --locked --manifest-path rust/Cargo.toml --bin tarhuspo
rust/target/release/tarhuspo list --hex examples/sample.hex
rust/target/release/tarhuspo audit --seconds 10
