#!/bin/sh
# Builds the headers' tests, the examples and, as C, the tools with each compiler that is there, warnings being errors,
# and runs them: the tests have to find nothing, each example to print its file examples/NAME.out, each tool its usage.
#   tests/c/run.sh LIBRARY
set -eu
cd "$(dirname "$0")/../.."
library=$1
work=target/c
mkdir -p "$work"

# The compiler and its options make programs that run; without the sanitizers' libraries, say, they don't.
there() { # COMPILER OPTION..
    echo 'int main(void) { return 0; }' >"$work/empty.c"
    command -v "$1" >/dev/null 2>&1 && "$@" "$work/empty.c" -o "$work/empty" 2>/dev/null && "$work/empty"
}

try() { # COMPILER OPTION..
    if ! there "$@"; then
        echo "$*: not there, left out"
        return
    fi
    for header in header names; do
        "$@" -Wall -Wextra -pedantic -Werror -Iinclude "tests/c/$header.c" -x none "$library" -o "$work/$header"
        "$work/$header" >"$work/$header.out" || { cat "$work/$header.out"; exit 1; }
    done
    for example in first driver frames standby; do
        "$@" -Wall -Wextra -pedantic -Werror -Iinclude "examples/$example.c" -x none "$library" -o "$work/$example"
        "$work/$example" >"$work/$example.out"
        diff "examples/$example.out" "$work/$example.out"
    done
    case "$*" in *c++*) ;; *)
        for tool in ftdbox ftdexchange ftdseat ftddump; do
            lines=tools/lines.c
            [ "$tool" != ftddump ] || lines=
            "$@" -D_POSIX_C_SOURCE=200809L -Wall -Wextra -pedantic -Werror "tools/$tool.c" $lines "$library" \
                -o "$work/$tool"
            "$work/$tool" --help | grep -q "^usage: $tool "
        done ;;
    esac
    echo "$*: ok"
}

try gcc -std=c99 -O0
try gcc -std=c99 -O2
try gcc -std=c99 -O1 -g -fsanitize=address,undefined -fno-sanitize-recover=all
try g++ -std=c++11 -O2 -x c++
try clang -std=c99 -O2
