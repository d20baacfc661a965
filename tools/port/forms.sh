#!/bin/sh
# What the kit's port.py leaves of every crate's sources: the plain types are copied, and each root file asks for tactics.
set -eu
grep -rl 'derive(Drop)' crates/*/src | xargs sed -i 's/#\[derive(Drop)\]/#[derive(Clone, Copy)]/'
for f in crates/*/src/lib.rt crates/*/src/main.rt; do
    grep -q 'tactic(auto)' "$f" || sed -i '0,/^[^\/]/{/^\/\//!{/./{s/^/#![tactic(auto)]\n\n/;:a;n;ba}}}' "$f"
done
