#!/usr/bin/env bash
# Makes packages of the library and its wrappers: package.sh FOLDER writes into FOLDER two Debian packages (libjolunza-dev and
# python3-jolunza), a wheel and a crate, over the library that install.sh takes. It wants dpkg-deb, python3 and cargo, and neither kit nor
# network.
set -eu
bindings=$(cd "$(dirname "$0")" && pwd)
top=$(dirname "$bindings")
[ $# = 1 ] || { echo "usage: package.sh FOLDER" >&2; exit 2; }
mkdir -p "$1"
into=$(cd "$1" && pwd)
work=$(mktemp -d)
trap 'rm -rf "$work"' EXIT
python_version=$(sed -n 's/^version = "\(.*\)"$/\1/p' "$bindings/python/pyproject.toml")

# debian NAME VERSION DEPENDS DESCRIPTION: the package of what lies in $work/NAME
debian() {
    local root=$work/$1
    mkdir -p "$root/DEBIAN" "$root/usr/share/doc/$1"
    cat "$top/NOTICE" "$top/LICENSE-MIT" > "$root/usr/share/doc/$1/copyright"
    cat > "$root/DEBIAN/control" << END
Package: $1
Version: $2
Architecture: amd64
Maintainer: Jolunza maintainers <maintainers@users.noreply.jolunza.example>
Depends: $3
Section: libdevel
Priority: optional
Description: $4
END
    dpkg-deb --root-owner-group --build "$root" "$into" > /dev/null
}

"$bindings/install.sh" "$work/libjolunza-dev/usr" lib/x86_64-linux-gnu > /dev/null
debian libjolunza-dev "$(cat "$bindings/VERSION")" "libc6 (>= 2.14)" "causal broadcast for one fixed group, proved: library and header"

install -D -m 644 "$bindings/python/jolunza.py" "$work/python3-jolunza/usr/lib/python3/dist-packages/jolunza.py"
debian python3-jolunza "$python_version" "python3 (>= 3.9), libjolunza-dev" "causal broadcast for one fixed group, proved: module for Python"

python3 -B "$bindings/python/wheel_backend.py" "$into" > /dev/null

# The crate contains the archive, which lies outside of the wrapper's folder.
library=$work/libjolunza-dev/usr/lib/x86_64-linux-gnu/libjolunza.a
mkdir -p "$work/crate"
cp -r "$bindings/rust/Cargo.toml" "$bindings/rust/build.rs" "$bindings/rust/README.md" "$bindings/rust/src" "$work/crate"
cp "$top/LICENSE-MIT" "$top/LICENSE-APACHE" "$top/NOTICE" "$work/crate"
sed -i '/^\[\[example\]\]$/,$d' "$work/crate/Cargo.toml"
install -D -m 644 "$library" "$work/crate/prebuilt/x86_64-linux-gnu/libjolunza.a"
(cd "$work/crate" && cargo package --quiet --offline --allow-dirty --target-dir "$work/target")
cp "$work"/target/package/*.crate "$into"
(cd "$into" && echo "in $into:" && ls)
