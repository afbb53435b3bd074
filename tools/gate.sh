#!/usr/bin/env bash
# The gate: rt ci over every crate. It fails too where a must-fail edit is bad: such an edit counts for nothing, and rt ci passes it.
set -euo pipefail
cd "$(dirname "$0")/.."
mkdir -p target
rt ci 2>&1 | tee target/gate.log
if grep -qE '^rt: ok.*, [0-9]+ bad' target/gate.log; then
    echo "gate: some must-fail edits are bad; target/gate.log names them" >&2
    exit 1
fi
