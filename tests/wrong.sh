#!/usr/bin/env bash
# Tries the wrong programs of tests/wrong, outside the gate: tests/wrong.sh [CRATE [NAME ..]], or --texts; tests/wrong/try.py has the rest.
exec python3 "$(dirname "$0")/wrong/try.py" "$@"
