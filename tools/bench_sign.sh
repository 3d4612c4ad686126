#!/usr/bin/env bash
# Times signing by the proved code against a plain table loop in Rust, both built for release, and
# prints nanoseconds per octet and their ratio. It needs rt, rustc and a quiet machine.
set -euo pipefail
cd "$(dirname "$0")/.."
(cd crates/mizkaule && rt lib) > /dev/null
kit=$(dirname "$(rt doc)")
built=$(mktemp -d)
trap 'rm -r "$built"' EXIT
rustc --edition 2024 -O -o "$built/bench_sign" tools/bench_sign/main.rs \
    -L crates/mizkaule/out -l static=mizkaule -L "$kit/c" -l static=libc_c
"$built/bench_sign"
