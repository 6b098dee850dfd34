#!/usr/bin/env bash
# Lets a member without a history cast in bursts until no number is left, through the library for C: bindings/c/greatest.c, some nine
# minutes. It wants gcc and the library (bindings/build.sh); LIBRARY=FOLDER takes another build.
set -eu
top=$(cd "$(dirname "$0")/.." && pwd)
library=${LIBRARY:-$top/bindings/out}
work=$(mktemp -d)
trap 'rm -rf "$work"' EXIT
gcc -O2 -std=c11 -Wall -Wextra -Werror -pedantic -I"$top/bindings/c" "$top/bindings/c/greatest.c" "$library/libjolunza.a" -o "$work/greatest"
"$work/greatest" | tee "$work/said"
diff - "$work/said" << 'END'
4294967264 casts, 31 numbers left
4294967295 casts, 4294967295 stable, no number left
END
