# What `run` and `sizes` share, to be sourced: where things are, the bench built, the emulator that counts the port.
#
# Assumes: `here` is this folder. Sets root, bench, pace and room, a folder that is removed at the end.

root=$(cd "$here/../.." && pwd -P)
KEYBERON_SRC=$(realpath "${KEYBERON_SRC:-$root/../shared}")
export KEYBERON_SRC
# the memcpy of plain x86-64, so that a count does not hang on the processor
export GLIBC_TUNABLES=glibc.cpu.hwcaps=-AVX,-AVX2,-AVX512F,-AVX512VL,-AVX_Fast_Unaligned_Load,-ERMS,-FSRM,-RTM

cargo build --release --offline --locked --manifest-path "$here/Cargo.toml" --target-dir "$root/oracle/target/speed" >&2
bench=$root/oracle/target/speed/release/bench
pace=$root/crates/pace/out/pace
room=$(mktemp -d)
trap 'rm -rf "$room"' EXIT

# Proves and builds a program of the repository, in its crate's out/; rt then runs it, with nothing to read.
build_program() { # NAME
    (cd "$root/crates/$1" && rt run </dev/null >&2)
}

needs() { # TOOL, and the package of Debian that has it
    if ! command -v "$1" >"$room/path"; then
        echo "oracle/speed: $1 is not on the path (Debian: $2)" >&2
        exit 1
    fi
}

# The emulator's plugin, and, on a machine that is not x86-64, the root that it finds the program's loader in.
prepare_emulator() {
    needs gcc gcc
    needs qemu-x86_64 qemu-user
    emulator=(qemu-x86_64 -cpu qemu64)
    if [[ $(uname -m) != x86_64 ]]; then
        X86_64_LIB=${X86_64_LIB:-/usr/x86_64-linux-gnu/lib}
        if [[ ! -e $X86_64_LIB/ld-linux-x86-64.so.2 ]]; then
            echo "oracle/speed: no C library of x86-64 in $X86_64_LIB: X86_64_LIB names its folder (Debian: libc6-amd64-cross)" >&2
            exit 1
        fi
        mkdir -p "$room/root/lib64"
        ln -s "$X86_64_LIB/ld-linux-x86-64.so.2" "$room/root/lib64/"
        emulator+=(-E "LD_LIBRARY_PATH=$X86_64_LIB" -L "$room/root")
    fi
    gcc -O2 -shared -fPIC -o "$room/counter.so" "$here/counter.c"
}

# Runs pace, and leaves in $room/sums what was counted within some functions: counter.c says what.
emulate() { # OPTIONS FUNCTION..
    local options=image=image::rules::check,checks=layout::layout::judge,out=$room/sums$1
    shift
    for function in "$@"; do
        options+=,toggle=$function
    done
    "${emulator[@]}" -plugin "$room/counter.so,$options" "$pace"
}
