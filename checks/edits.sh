#!/bin/sh
# Tries the edits of crates/NAME/edits.txt, of all crates or of those named: the prover must refuse each. It is run for each crate that changed; the gate
# tries those of two crates (--by), and without a proof whether all can be applied (--fit). It works on copies and wants python3.
exec python3 "$(dirname "$0")/edits.py" "$@"
