#!/usr/bin/env bash
# Runs the whole gate from nothing, and prints a table of the processor seconds that each crate's proof, its tests' proof, its
# must-fail edits and its runs took, the dearest crate first. It takes as long as the gate does, so it is no part of it.
# Arguments: how many pieces of work may run side by side (1, so that none slows another).
lanes=${1:-1}
here=$(cd "$(dirname "$0")" && pwd)
cd "$here/../.." || exit 1
RT_JOBS=$lanes exec python3 "$here/measure.py" "$(command -v rt)" "${TMPDIR:-/tmp}/gate.log"
