#!/usr/bin/env bash
# Whether each wrong body of tests/edits still applies: its old text stands once in the file that it names. No prover is
# asked: `./test edits` tries them.
set -eu
cd "$(dirname "$0")/.."
python3 -B tests/edits.py applies
