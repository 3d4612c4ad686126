#!/usr/bin/env bash
# Shows that code which goes round the check of a block, or uses a checked block or a press twice, does not build.
#
# Each trial below is a function in two forms, which differ in one line: the form marked '+' is correct and must be
# proved, the form marked '-' must be refused by the compiler's error that is named with the trial, and by no other.
# All correct forms are built first, together; a refusal counts only if its correct form was proved. Everything happens
# in a temporary copy of the repository, where rt begins with what it has kept of crates that are proved already.
#
# usage: tools/linearity.sh      prints a line for each trial; status 0 if all are refused as named
set -u
cd "$(dirname "$0")/.." || exit 2
copy=$(mktemp -d) || exit 2
trap 'rm -rf "$copy"' EXIT
trials=() codes=()

# Keeps a trial: its name, the error that must refuse it, and from the standard input the function in both forms.
trial() { # NAME CODE
    trials+=("$1") codes+=("$2")
    cat >"$copy/$1.both"
}

# Writes a crate with one form of some trials. The forms of a trial begin with '+' or '-', all other lines are in both.
crate() { # NAME FORM TRIAL...
    local name=$1 form=$2 dir=$copy/crates/$1/src
    shift 2
    mkdir -p "$dir"
    {
        echo '// Trials of what may be done with blocks and presses.'
        echo '#![tactic(auto)]'
        for item in block::CheckedBlock block::Own block::RawBlock block::Setup device::Device host::Button host::Host host::Press \
            machine::Outcome pair::Pair refusal::Refusal signature::SignatureKind std::marker::PhantomData; do
            echo "use $item;"
        done
        for each in "$@"; do sed -n "s/^[$form]/ /p; t; /^[^+-]/p" "$copy/$each.both"; done
    } >"$dir/lib.rt"
    echo "$name: refusal signature block machine frame host device pair" >>"$copy/crates.txt"
}

# ---- an end starts from a checked block only

trial unchecked_block_starts_host mismatched-types <<'END'
pub fn unchecked_block_starts_host<K: SignatureKind>(raw: RawBlock<'_>) -> Result<Host<K>, Refusal> {
+   Ok(Host::start(raw.check::<K>(Own { address: 2, rank: 3, out_len: 0, in_len: 0 })?))
-   Ok(Host::start(raw))
}
END

trial unchecked_block_starts_device mismatched-types <<'END'
pub fn unchecked_block_starts_device<K: SignatureKind>(raw: RawBlock<'_>) -> Result<Device<K>, Refusal> {
+   Ok(Device::start(raw.check::<K>(Own { address: 2, rank: 3, out_len: 0, in_len: 0 })?))
-   Ok(Device::start(raw))
}
END

trial unchecked_block_starts_pair mismatched-types <<'END'
pub fn unchecked_block_starts_pair<K: SignatureKind>(one: CheckedBlock<K>, raw: RawBlock<'_>) -> Result<Pair<K, K>, Refusal> {
+   Ok(Pair::start(one, raw.check::<K>(Own { address: 2, rank: 3, out_len: 0, in_len: 0 })?))
-   Ok(Pair::start(one, raw))
}
END

trial setup_starts_host mismatched-types <<'END'
pub fn setup_starts_host<K: SignatureKind>(one: CheckedBlock<K>) -> Host<K> {
+   Host::start(one)
-   Host::start(one.into_setup())
}
END

trial block_by_literal private-field <<'END'
pub fn block_by_literal<K: SignatureKind>(raw: RawBlock<'_>, setup: Setup) -> Result<CheckedBlock<K>, Refusal> {
+   raw.check::<K>(Own { address: 2, rank: 3, out_len: usize::from(setup.out_len), in_len: usize::from(setup.in_len) })
-   Ok(CheckedBlock { setup, kind: PhantomData })
}
END

trial block_altered private-field <<'END'
pub fn block_altered<K: SignatureKind>(one: CheckedBlock<K>, two: CheckedBlock<K>) -> Host<K> {
    let mut block = one;
+   block = two;
-   block.setup.watch = 0;
    Host::start(block)
}
END

# ---- a checked block starts one end

trial block_starts_host_and_device borrow-e0382 <<'END'
pub fn block_starts_host_and_device<K: SignatureKind>(one: CheckedBlock<K>, two: CheckedBlock<K>) -> (Host<K>, Device<K>) {
+   (Host::start(one), Device::start(two))
-   (Host::start(one), Device::start(one))
}
END

trial block_starts_two_hosts borrow-e0382 <<'END'
pub fn block_starts_two_hosts<K: SignatureKind>(one: CheckedBlock<K>, two: CheckedBlock<K>) -> (Host<K>, Host<K>) {
+   (Host::start(one), Host::start(two))
-   (Host::start(one), Host::start(one))
}
END

trial block_starts_both_ends_of_pair borrow-e0382 <<'END'
pub fn block_starts_both_ends_of_pair<K: SignatureKind>(one: CheckedBlock<K>, two: CheckedBlock<K>) -> Pair<K, K> {
+   Pair::start(one, two)
-   Pair::start(one, one)
}
END

trial block_copied move-out-of-place <<'END'
pub fn block_copied<K: SignatureKind>(one: CheckedBlock<K>, two: CheckedBlock<K>) -> (Host<K>, Device<K>) {
    let lent = &one;
+   let other = two;
-   let other = *lent;
    (Host::start(one), Device::start(other))
}
END

trial block_cloned unknown-method <<'END'
pub fn block_cloned<K: SignatureKind>(one: CheckedBlock<K>, two: CheckedBlock<K>) -> (Host<K>, Device<K>) {
+   let other = two;
-   let other = one.clone();
    (Host::start(one), Device::start(other))
}
END

trial host_cloned unknown-method <<'END'
pub fn host_cloned<K: SignatureKind>(one: Host<K>, two: Host<K>) -> (Host<K>, Host<K>) {
+   let other = two;
-   let other = one.clone();
    (one, other)
}
END

trial device_cloned unknown-method <<'END'
pub fn device_cloned<K: SignatureKind>(one: Device<K>, two: Device<K>) -> (Device<K>, Device<K>) {
+   let other = two;
-   let other = one.clone();
    (one, other)
}
END

# ---- a press comes from the button, and is handed in once

trial press_by_literal private-field <<'END'
pub fn press_by_literal(button: &mut Button) -> Result<Option<Press>, Refusal> {
+   button.read(1)
-   Ok(Some(Press { made: () }))
}
END

trial press_handed_in_twice borrow-e0382 <<'END'
pub fn press_handed_in_twice<K: SignatureKind>(host: &mut Host<K>, button: &mut Button) -> Result<Outcome, Refusal> {
    let press = button.read(1)?;
    let _ = host.press(press);
+   host.press(button.read(1)?)
-   host.press(press)
}
END

trial press_handed_to_two_hosts borrow-e0382 <<'END'
pub fn press_handed_to_two_hosts<K: SignatureKind>(one: &mut Host<K>, two: &mut Host<K>, press: Option<Press>) -> Result<Outcome, Refusal> {
    let _ = one.press(press);
+   two.press(None)
-   two.press(press)
}
END

trial press_copied move-out-of-place <<'END'
pub fn press_copied(one: Press, two: Press) -> (Press, Press) {
    let lent = &one;
+   let other = two;
-   let other = *lent;
    (one, other)
}
END

trial press_cloned unknown-method <<'END'
pub fn press_cloned(one: Press, two: Press) -> (Press, Press) {
+   let other = two;
-   let other = one.clone();
    (one, other)
}
END

# ---- the trials

git ls-files -z crates crates.txt | xargs -0 cp --parents -t "$copy" || exit 2
crate correct_forms + "${trials[@]}"
for name in "${trials[@]}"; do crate "$name" - "$name"; done
cd "$copy" || exit 2
(cd crates/correct_forms && rt check) >correct.log 2>&1
grep -q '^logic=proved' correct.log || grep -h 'error\[' correct.log | cut -c1-300

accepted=0 astray=0
for i in "${!trials[@]}"; do
    name=${trials[$i]} code=${codes[$i]}
    if ! grep -q "^fn correct_forms::$name: proved" correct.log; then
        echo "$name: not tried, its correct form is not proved" && astray=$((astray + 1))
        continue
    fi
    (cd "crates/$name" && rt check) >"$name.log" 2>&1 && status=0 || status=$?
    found=$(grep -o '^src/lib.rt:[0-9:]* error\[[a-z0-9-]*\]' "$name.log" | sed 's/.*\[\(.*\)\]/\1/' | sort -u | paste -sd ' ' -)
    if [ "$status" -eq 0 ]; then
        echo "$name: ACCEPTED" && accepted=$((accepted + 1))
    elif [ "$found" = "$code" ]; then
        echo "$name: refused by $code"
    else
        echo "$name: failed by ${found:-no error of its own}, not by $code" && astray=$((astray + 1))
    fi
done
if [ "$astray" -eq 0 ]; then
    echo "${#trials[@]} cases, $accepted accepted"
else
    echo "${#trials[@]} cases, $accepted accepted, $astray not judged"
fi
[ "$((accepted + astray))" -eq 0 ]
