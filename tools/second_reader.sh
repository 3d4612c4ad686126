#!/usr/bin/env bash
# Builds the second reader beside the proved library and runs it: tools/second_reader.sh WORDS (see its README).
set -euo pipefail
cd "$(dirname "$0")/.."
(cd crates/mizkaule && rt lib) > /dev/null
kit=$(dirname "$(rt doc)")
built=$(mktemp -d)
trap 'rm -r "$built"' EXIT
rustc --edition 2021 -O -C codegen-units=1 -o "$built/second_reader" tools/second_reader/main.rs \
    -L native=crates/mizkaule/out -l static=mizkaule -L "native=$kit/c" -l static=libc_c
"$built/second_reader" "$@"
