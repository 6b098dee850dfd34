#!/usr/bin/env bash
# Installs the library for C: install.sh PREFIX [LIBDIR] puts jolunza.h, both libraries and jolunza.pc below PREFIX. LIBDIR starts from
# PREFIX, and is lib where it is not given. The library is that of JOLUNZA_LIB where that is set, else of bindings/out, which build.sh
# fills, else of bindings/prebuilt. You can move what it installs as a whole: jolunza.pc finds the rest from where it lies. It wants no kit.
set -eu
bindings=$(cd "$(dirname "$0")" && pwd)
[ $# = 1 ] || [ $# = 2 ] || { echo "usage: install.sh PREFIX [LIBDIR]" >&2; exit 2; }
from=${JOLUNZA_LIB:-$bindings/out}
[ -n "${JOLUNZA_LIB:-}" ] || [ -e "$from/libjolunza.a" ] || from=$bindings/prebuilt/x86_64-linux-gnu
[ -e "$from/libjolunza.a" ] || { echo "install.sh: there is no libjolunza.a in $from" >&2; exit 1; }
mkdir -p "$1"
prefix=$(cd "$1" && pwd)
libraries=$prefix/${2:-lib}
mkdir -p "$prefix/include" "$libraries/pkgconfig"
install -m 644 "$bindings/c/jolunza.h" "$prefix/include"
install -m 644 "$from/libjolunza.a" "$libraries"
install -m 755 "$from/libjolunza.so.1" "$libraries"
ln -sfn libjolunza.so.1 "$libraries/libjolunza.so"
cat > "$libraries/pkgconfig/jolunza.pc" << END
libdir=\${pcfiledir}/..
includedir=\${pcfiledir}/$(realpath --relative-to="$libraries/pkgconfig" "$prefix/include")

Name: jolunza
Description: causal broadcast for one fixed group, proved
Version: $(cat "$bindings/VERSION")
Libs: -L\${libdir} -ljolunza
Cflags: -I\${includedir}
END
echo "the library is in $libraries, the header in $prefix/include"
