#!/bin/sh
# oracle/build.sh RUST_SRC OUT [PROGRAM]: compiles the unchanged Rust in RUST_SRC/src, in release mode (sums wrap), and over it PROGRAM of this folder:
# `oracle` (src/main.rs, the harness; the default) or `pace` (src/pace.rs), into OUT/PROGRAM. RUSTC names the compiler, RUSTC_WORDS what it is told
# besides (a target). The crates that the Rust uses (fnv, zero, bincode, serde_derive) are stand-ins of a few lines.
set -eu
here=$(cd "$(dirname "$0")" && pwd)
RUST_SRC=$(cd "$1" && pwd)
export RUST_SRC
mkdir -p "$2"
out=$(cd "$2" && pwd)
program=${3:-oracle}
main=$program
[ "$program" != oracle ] || main=main
# the speed is measured of one unit of code, as Rattle's programs are
whole=
[ "$program" != pace ] || whole="-C lto=fat -C codegen-units=1"
rustc=${RUSTC:-rustc}
compile() { "$rustc" -C opt-level=3 -C overflow-checks=off -C debug-assertions=off --cap-lints allow -L "$out" "$@"; }
build() {
    name=$1
    shift
    compile --edition 2015 --crate-name "$name" --out-dir "$out" "$@"
}
# the compiler loads this one itself, so it is not for the target
build serde_derive --crate-type proc-macro "$here/standins/serde_derive.rs"
for c in fnv zero bincode; do build $c --crate-type rlib ${RUSTC_WORDS:-} "$here/standins/$c.rs"; done
build rust --crate-type rlib ${RUSTC_WORDS:-} "$here/src/rust.rs"
compile --edition 2021 --crate-name "$program" ${RUSTC_WORDS:-} $whole -o "$out/$program" "$here/src/$main.rs"
