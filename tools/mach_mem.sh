#!/usr/bin/env bash
# Writes the trees of crates/mach_mem from tools/mach_mem.desc.py, and lays them out (rt fmt; imports that nothing uses
# go by rt check --fix-imports).
set -eu
cd "$(dirname "$0")/.."
python3 tools/trees.py tools/mach_mem.desc.py tag Trees > crates/mach_mem/specs/Trees.antt
python3 tools/code.py tools/mach_mem.desc.py Trees mach_mem crates/mach_mem
cd crates/mach_mem
rt fmt
rt check --fix-imports
