#!/bin/sh
# A power of root two, a power of two, a slice count and a qubit are types of their own. Each snippet below mixes two of
# them up, and the compiler has to refuse it with a type error. The first one mixes nothing up, and has to pass.
set -eu
repository=$(cd "$(dirname "$0")/.." && pwd)
work=$(mktemp -d)
trap 'rm -rf "$work"' EXIT
mkdir -p "$work/crates/trial/src"
cp -R "$repository/crates/exact" "$work/crates/exact"
rm -rf "$work/crates/exact/must-fail" "$work/crates/exact/out"
printf 'exact:\ntrial: exact\n' > "$work/crates.txt"
cd "$work"
failed=0

# offer CODE: checks a crate with this code; its log is left in trial.log
offer() {
    {
        echo '//! A snippet.'
        for name in Amplitude Quadruple Qubit RootTwoPower SliceCount TwoPower Weight; do
            echo "use exact::$name;"
        done
        echo "$1"
    } > crates/trial/src/lib.rt
    (cd crates/trial && rt check) > trial.log 2>&1
}

passes() {
    if offer "$2"; then
        echo "passed, as it must: $1"
    else
        echo "FAILED, and must pass: $1"
        cat trial.log
        failed=1
    fi
}

refused() {
    if offer "$2"; then
        echo "PASSED, and must be refused: $1"
        failed=1
    elif grep -q 'error\[mismatched-types\]' trial.log; then
        echo "refused, as it must be: $1"
    else
        echo "REFUSED, but not for its types: $1"
        cat trial.log
        failed=1
    fi
}

one='Quadruple { a: 0, b: 0, c: 0, d: 1 }'

passes 'each kind in its own place' "
pub fn amplitude(k: RootTwoPower) -> Amplitude { Amplitude { quadruple: $one, power: k } }
pub fn weight(k: RootTwoPower) -> Weight { Weight { whole: 1, root: 0, power: k.of_squares() } }
pub fn slices(_w: SliceCount, _q: Qubit, _k: TwoPower) {}
pub fn call() { slices(SliceCount(2), Qubit(0), TwoPower(1)) }"

refused 'a power of two as the power of an amplitude' "
pub fn mixed(k: TwoPower) -> Amplitude { Amplitude { quadruple: $one, power: k } }"

refused 'a slice count as the power of an amplitude' "
pub fn mixed(w: SliceCount) -> Amplitude { Amplitude { quadruple: $one, power: w } }"

refused 'a power of root two as the power of a weight' "
pub fn mixed(k: RootTwoPower) -> Weight { Weight { whole: 1, root: 0, power: k } }"

refused 'a slice count as the power of a weight' "
pub fn mixed(w: SliceCount) -> Weight { Weight { whole: 1, root: 0, power: w } }"

refused "an amplitude's power as a weight's" "
pub fn mixed(x: Amplitude, w: Weight) -> Weight { Weight { whole: w.whole, root: w.root, power: x.power } }"

refused 'a power of root two as a slice count' "
pub fn slices(_w: SliceCount) {}
pub fn mixed(k: RootTwoPower) { slices(k) }"

refused 'a qubit as a slice count' "
pub fn slices(_w: SliceCount) {}
pub fn mixed(q: Qubit) { slices(q) }"

refused 'a slice count as a qubit' "
pub fn target(_q: Qubit) {}
pub fn mixed(w: SliceCount) { target(w) }"

refused 'a plain integer as a qubit' "
pub fn target(_q: Qubit) {}
pub fn mixed(q: u32) { target(q) }"

refused 'a plain integer as a power of root two' "
pub fn mixed(k: u32) -> Amplitude { Amplitude { quadruple: $one, power: k } }"

refused 'the power of the squares as a power of root two' "
pub fn mixed(k: RootTwoPower) -> RootTwoPower { k.of_squares() }"

refused 'a weight as an amplitude' "
pub fn shown(_x: Amplitude) {}
pub fn mixed(w: Weight) { shown(w) }"

exit $failed
