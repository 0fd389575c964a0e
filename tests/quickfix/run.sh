#!/usr/bin/env bash
# Our reader of frames beside QuickFIX, with JR/T 0087's tables as its dictionary: each difference must have one of the reasons that
# tests/reader/src/bin/quickfix.rs names. Then the time that QuickFIX and, where it is built, the proved library (target/lib/libftd.a) take
# for a frame. Where QuickFIX (package libquickfix-dev), a C++ compiler or cargo isn't there, it says so and passes.
#   tests/quickfix/run.sh [FRAMES [SEED]]
set -euo pipefail
cd "$(dirname "$0")"
if ! command -v g++ >/dev/null 2>&1 || ! command -v cargo >/dev/null 2>&1; then
    echo "beside QuickFIX: not run, there is no command g++ or cargo"
    exit 0
fi
if ! echo '#include <quickfix/Session.h>' | g++ -std=c++14 -w -fsyntax-only -x c++ - 2>/dev/null; then
    echo "beside QuickFIX: not run, it isn't installed"
    exit 0
fi
mkdir -p target
library=../../target/lib/libftd.a
with=()
if [ -e "$library" ]; then
    with=(-DFTD -I../../include "$library")
fi
if [ engine.cpp -nt target/engine ] || [ "$library" -nt target/engine ]; then
    g++ -std=c++14 -O2 -Wall -Wno-deprecated engine.cpp "${with[@]}" -o target/engine -lquickfix -lpthread
fi
(cd ../reader && cargo build --release --offline --quiet --bin quickfix)
quickfix=../reader/target/release/quickfix
"$quickfix" target/engine jrt0087.xml "${1:-60000}" "${2:-1}"
"$quickfix" frames 10000 1 >target/frames
target/engine jrt0087.xml time 5 <target/frames
