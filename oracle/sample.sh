#!/bin/sh
# oracle/sample.sh [DIR]: makes the stored sample again, byte for byte, as DIR/stdin and DIR/stdout (default: crates/drive). It is a choice of the
# edges, ten random sequences, and a choice of what oracle/refusals.py adds. It wants rustc and the Rust's source, as tools/compare does.
set -eu
cd "$(dirname "$0")/.."
dir=${1:-crates/drive}
source=${X86EMU_SRC:-../shared/docs/src}
[ -f "$source/src/machine_state.rs" ] || { echo "no Rust source in $source; X86EMU_SRC names its folder" >&2; exit 1; }
oracle/build.sh "$source" target/oracle
target/oracle/oracle sample "$dir/stdin" "$dir/stdout"
oracle/refusals.py "$dir/stdin" "$dir/stdout" sample
