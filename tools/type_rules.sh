#!/usr/bin/env bash
# Writes the trees of crates/type_rules from tools/type_rules.desc.py, and lays them out.
set -eu
cd "$(dirname "$0")/.."
python3 tools/trees.py tools/type_rules.desc.py tag Forms > crates/type_rules/specs/Forms.antt
python3 tools/code.py tools/type_rules.desc.py Forms type_rules crates/type_rules
cd crates/type_rules
rt fmt
