#!/bin/sh
# Runs the gate, and prints what it cost: processor seconds by crate, for its proof, its tests and its edits, and the sums in
# processor minutes. Tests and edits together should cost no more than the proofs.
#
#     bench/gate.sh [WORD..]      the words are given to `rt ci`
set -eu
cd "$(dirname "$0")/.."
exec python3 bench/gate.py rt ci "$@"
