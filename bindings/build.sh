#!/usr/bin/env bash
# Makes the library for C, Rust and Python: libjolunza.a and libjolunza.so in bindings/out. The crate is proved first, and so is what it
# stands on where this machine has not proved it yet.
#   build.sh          makes them
#   build.sh --keep   puts the library into bindings/prebuilt too, with its sums and the sum of its sources, to be committed
# JOLUNZA_OVER_GATE=1 takes what it stands on as `rt ci` has just left it in this checkout, and fails where it has left nothing.
# JOLUNZA_ARCHIVE=FILE takes a whole archive that was made otherwise, and proves nothing: for work on the bindings.
# It wants rt, gcc and ar.
set -eu
top=$(cd "$(dirname "$0")/.." && pwd)
out=$top/bindings/out
mkdir -p "$out"
work=$(mktemp -d "$out/making.XXXXXX")
trap 'rm -rf "$work"' EXIT
keep=${1:-}
[ -z "$keep" ] || [ "$keep" = --keep ] || { echo "build.sh: $keep is no option of it" >&2; exit 2; }
[ -z "$keep" ] || [ -z "${JOLUNZA_ARCHIVE:-}" ] || { echo "build.sh: an archive that was not proved here is not kept" >&2; exit 2; }

# The crate's archive lacks what calls malloc, realloc and free: one object of the kit's. Nothing in it depends on the day or the user.
if [ -n "${JOLUNZA_ARCHIVE:-}" ]; then
    cp "$JOLUNZA_ARCHIVE" "$work/libjolunza.a"
else
    if [ -n "${JOLUNZA_OVER_GATE:-}" ]; then
        "$top/bindings/over_gate.py" "$work/libjolunza.a"
    else
        (cd "$top/crates/jolunza" && rt lib)
        cp "$top/crates/jolunza/out/libjolunza.a" "$work"
    fi
    (cd "$work" && ar x "$(dirname "$(rt doc)")/c/liblibc_c.a" heap.pic.o && ar rsD libjolunza.a heap.pic.o)
fi

# The shared object exports the calls of the header and nothing else, under a version.
cat > "$work/version" << 'END'
JOLUNZA_1 {
    global: jolunza_*;
    local: *;
};
END
gcc -shared -o "$work/libjolunza.so.1" -Wl,--whole-archive "$work/libjolunza.a" -Wl,--no-whole-archive \
    -Wl,--version-script="$work/version" -Wl,-soname,libjolunza.so.1 -Wl,--gc-sections -Wl,-z,defs -Wl,-z,now

# They replace those of before at once, so that a program that runs over those goes on.
mv "$work/libjolunza.a" "$work/libjolunza.so.1" "$out"
ln -sfn libjolunza.so.1 "$out/libjolunza.so"
echo "libjolunza.a and libjolunza.so are in $out"

if [ -n "$keep" ]; then
    kept=$top/bindings/prebuilt/x86_64-linux-gnu
    mkdir -p "$kept"
    cp "$out/libjolunza.a" "$kept"
    strip --strip-unneeded -o "$kept/libjolunza.so.1" "$out/libjolunza.so.1"
    (cd "$kept" && sha256sum libjolunza.a libjolunza.so.1 > SHA256SUMS)
    "$top/bindings/sources.py" > "$kept/SOURCES"
    echo "libjolunza.a, libjolunza.so.1, SHA256SUMS and SOURCES are in $kept"
fi
