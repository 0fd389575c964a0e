#!/usr/bin/env bash
# The outside tests: builds the static library, the lister and the Rust side,
# compares the proved library with the independent reader on generated inputs and captures, and the two ends, named
# places, the box, three boxes in a row and the order of two ends with their models on random lists of calls; the
# reader's frames with QuickFIX where that is installed; breaks the lines and programs of the box on real lines
# (tests/box); shows that deliberate faults, wrong boxes and wrong programs for named places and for the order are found,
# and times both sides.
# Any failure makes it fail.
#   tests/run.sh           all of it, some minutes on top of the proofs
#   tests/run.sh --quick   the comparison alone, on a million inputs and calls, and 15 seconds of the box on real lines:
#                          a minute or so where the crates are proved already
# Needs the Rattle kit (rt) and cargo; no network. The benchmark says nothing where the machine is busy.
set -euo pipefail
cd "$(dirname "$0")/.."
root=$PWD
quick=0
[ "${1:-}" = --quick ] && quick=1

if ! command -v cargo >/dev/null 2>&1; then
    echo "outside tests: there is no command cargo"
    exit 1
fi

(cd crates/ftdlist && rt run </dev/null >/dev/null)
# The library, by the name that programs link it by, is made while the reader's own tests run.
make_library() {
    if command -v make >/dev/null 2>&1; then
        make --no-print-directory lib | tail -1
    else
        (cd crates/exports && rt lib) | tail -1
        mkdir -p target/lib
        cp crates/exports/out/libexports.a target/lib/libftd.a
    fi
}
said=$(mktemp)
trap 'rm -f "$said"' EXIT
make_library >"$said" 2>&1 &
making=$!
(cd tests/reader && cargo test --offline --quiet)
if ! wait "$making"; then
    cat "$said"
    echo "outside tests: the library was not made"
    exit 1
fi
cat "$said"
# The header and the examples from C and C++.
if command -v make >/dev/null 2>&1; then
    make --no-print-directory --silent check-c LIB=target/lib/libftd.a
else
    echo "tests from C: not run, there is no command make"
fi
# The box on real lines: its programs, and the test that breaks everything.
if command -v make >/dev/null 2>&1; then
    make --no-print-directory --silent tools LIB=target/lib/libftd.a
    if [ "$quick" -eq 1 ]; then
        python3 tests/box/run.py --quick
    else
        python3 tests/box/run.py
        python3 tests/box/run.py --planted
    fi
else
    echo "box test: not run, there is no command make"
fi
bash tests/quickfix/run.sh
(cd tests/outside && cargo build --release --offline --quiet)
outside=$root/tests/outside/target/release
if [ "$quick" -eq 1 ]; then
    "$outside/differ" 1000000 1 "$root/crates/ftdlist/out/ftdlist"
    "$outside/calls" 1000000 1
else
    "$outside/differ" 2000000 1 "$root/crates/ftdlist/out/ftdlist"
    "$outside/differ" 1000000 2 "$root/crates/ftdlist/out/ftdlist"
    "$outside/calls" 5000000 1
    "$outside/calls" 1000000 2
    "$outside/calls" 100000 1 wrong
    bash tests/faults.sh
    "$outside/bench"
    "$outside/bench_ends"
    # Built where the library has the box: the feature `box` of tests/outside/Cargo.toml.
    [ ! -e "$outside/bench_box" ] || "$outside/bench_box"
    "$outside/bench_book"
    "$outside/bench_frames"
    "$outside/sends"
fi
echo "outside tests: ok"
