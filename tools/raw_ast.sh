#!/usr/bin/env bash
# Writes the trees of crates/raw_ast/specs from tools/raw_ast.desc.py (then rt fmt and rt tidy there).
set -eu
cd "$(dirname "$0")/.."
for tree in Types Atoms Code; do
    python3 tools/trees.py tools/raw_ast.desc.py tag "$tree" > "crates/raw_ast/specs/$tree.antt"
done
