#!/usr/bin/env bash
# Builds the archive of the coupler for C, and tries header, example and test with the C compiler of this machine.
#
# The example's output must be the replay that docs/SAMPLES.md has of each sample book, and docs/OUTPUT.md of the worked
# one. It needs rt and gcc (or CC), and g++ (or CXX) for the header as C++, which is left out where there is none.
#
# usage: tools/c_interface.sh      its last line is 'N checks, 0 failed'; status 1 if a check failed
set -u
cd "$(dirname "$0")/.." || exit 2
cc=${CC:-gcc} cxx=${CXX:-g++}
strict=(-Wall -Wextra -Werror -pedantic -I tools/c_interface)
wrapped=-Wl,--wrap=malloc,--wrap=realloc,--wrap=free
built=$(mktemp -d) || exit 2
trap 'rm -rf "$built"' EXIT
checks=0 failed=0

# Counts a check, and says what failed.
count() { # STATUS WHAT
    checks=$((checks + 1))
    [ "$1" -eq 0 ] && return
    failed=$((failed + 1))
    echo "failed: $2"
}

# Runs a command as a check.
try() { # WHAT COMMAND...
    local what=$1
    shift
    "$@"
    count $? "$what"
}

# Runs a test program and takes over its last line, unless that and its status disagree.
run_test() { # WHAT PROGRAM
    local last status
    "$2" >"$built/said"
    status=$?
    last=$(tail -n 1 "$built/said")
    if [[ $last =~ ^([0-9]+)\ checks,\ ([0-9]+)\ failed$ ]] && [ "$((BASH_REMATCH[2] != 0))" -eq "$status" ]; then
        checks=$((checks + BASH_REMATCH[1])) failed=$((failed + BASH_REMATCH[2]))
        sed '$d' "$built/said"
        echo "$1: $last"
    else
        cat "$built/said"
        count 1 "$1 broke off with status $status"
    fi
}

# The first indented lines of a page behind the line that begins with the mark, and before the next heading.
replay_in() { # PAGE MARK
    awk -v mark="$2" '
        index($0, mark) == 1 { on = 1; next }
        on && /^    / { print substr($0, 5); seen = 1; next }
        on && (/^#/ || (seen && NF)) { exit }' "$1"
}

# Runs the example on a sample and compares its standard output; a sample without a replay in the pages fails.
compare() { # SAMPLE
    local name=${1##*/}
    if [ "$name" = worked.book ]; then
        replay_in docs/OUTPUT.md 'For `samples/worked.book`:' >"$built/expected"
    else
        replay_in docs/SAMPLES.md "## $name" >"$built/expected"
    fi
    try "$name has a replay in the pages" test -s "$built/expected"
    try "the example ends well on $name" "$built/example" "$1" >"$built/printed" 2>/dev/null
    try "the example prints the replay of $name" diff "$built/expected" "$built/printed"
    "$built/example" <"$1" >"$built/printed" 2>/dev/null
    try "the same from standard input" cmp "$built/expected" "$built/printed"
}

(cd crates/mizkaule && rt lib) >"$built/log" 2>&1 || { cat "$built/log"; echo 'the archive was not built'; exit 1; }
kit=$(dirname "$(rt doc)")
libraries=(crates/mizkaule/out/libmizkaule.a "$kit/c/liblibc_c.a")

try 'the test compiles' "$cc" -std=c99 -O2 "${strict[@]}" -o "$built/test" tools/c_interface/test.c \
    "${libraries[@]}" $wrapped
run_test 'test' "$built/test"
try 'the test compiles with sanitizers' "$cc" -std=c99 -g "${strict[@]}" -fsanitize=address,undefined \
    -fno-sanitize-recover=all -o "$built/sanitized" tools/c_interface/test.c "${libraries[@]}" $wrapped
run_test 'test with sanitizers' "$built/sanitized"

"$built/test" reasons >"$built/reasons"
sed -n '/pub fn text/,/^    }/s/.*"\(.*\)".*/\1/p' crates/refusal/src/reason.rt >"$built/expected"
try 'the header has the eighteen reasons' test "$(wc -l <"$built/expected")" -eq 18
try 'the reasons are worded as in the crate' diff "$built/expected" "$built/reasons"

if command -v "$cxx" >/dev/null; then
    printf '#include "mizkaule.h"\nint main() { return mizkaule_replay(0, 0, 0, 0).size == 13 ? 0 : 1; }\n' \
        >"$built/header.cc"
    try 'the header compiles as C++' "$cxx" "${strict[@]}" -o "$built/header" "$built/header.cc" "${libraries[@]}"
    try 'the header works in C++' "$built/header"
fi

try 'the example compiles' "$cc" -std=c99 -O2 "${strict[@]}" -o "$built/example" tools/c_interface/example.c \
    "${libraries[@]}"
for sample in samples/*.book; do
    compare "$sample"
done
for name in $(sed -n 's/^## \(.*\.book\)$/\1/p' docs/SAMPLES.md); do
    try "$name of the page is a sample" test -f "samples/$name"
done
"$built/example" "$built/absent" >/dev/null 2>&1
try 'a book that is not there is status 1' test $? -eq 1

echo "$checks checks, $failed failed"
[ "$failed" -eq 0 ]
