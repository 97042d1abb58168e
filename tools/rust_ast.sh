#!/usr/bin/env bash
# Writes the trees of crates/rust_ast from tools/rust_ast.desc.py, and lays them out (rt fmt; imports that nothing uses
# go by rt check --fix-imports).
set -eu
cd "$(dirname "$0")/.."
for tree in SourceTypes SourcePatterns Source Written Patterns Resolved SpelledPatterns Spelled; do
    python3 tools/trees.py tools/rust_ast.desc.py tag "$tree" > "crates/rust_ast/specs/$tree.antt"
    python3 tools/code.py tools/rust_ast.desc.py "$tree" rust_ast crates/rust_ast
done
cd crates/rust_ast
rt fmt
rt check --fix-imports
