# shellcheck shell=sh
# tools/kit.sh: where the Rattle kit stands, and how what it builds is run. The scripts of this folder source it; it ends them with status 2 where there
# is no kit. It sets
#   chain      the kit's folder of compiler, linker and C library
#   emulator   what runs programs for x86-64 here: the kit's emulator, or nothing where it has none, and the processor runs them itself
# and defines `exec_x86 PROGRAM [WORDS..]`, by which the shell becomes that program, with the kit's C library. Run by itself, it prints chain and
# emulator, a line each: that is for the scripts in Python.
if ! command -v rt >/dev/null; then
    echo "there is no rt on the path, the command of the Rattle kit: README.md says what is needed" >&2
    exit 2
fi
kit=${RATTLE_HOME:-$(dirname "$(dirname "$(readlink -f "$(command -v rt)")")")}
chain=$kit/toolchain
if [ ! -d "$chain" ]; then
    echo "the Rattle kit at $kit has no folder toolchain: README.md says what is needed" >&2
    exit 2
fi
emulator=$chain/bin/qemu-x86_64
[ -x "$emulator" ] || emulator=
exec_x86() { exec ${emulator:+"$emulator"} "$chain/lib/ld-linux-x86-64.so.2" --library-path "$chain/lib" "$@"; }
[ "${0##*/}" != kit.sh ] || printf '%s\n' "$chain" "$emulator"
