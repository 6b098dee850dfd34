#!/usr/bin/env bash
# Builds the library and tries all that stands over it: the header against the crates and the wrappers, the programs in C by gcc and
# clang, under sanitizers and valgrind, and the tests of the wrappers for Rust and Python. A line for each, and what it said where it
# failed. What wants a program that this machine lacks is skipped, and said so. The last line counts; status 1 where one failed.
# JOLUNZA_ARCHIVE=FILE goes to build.sh: nothing is proved then.
set -u -o pipefail
cd "$(dirname "$0")" || exit 2
here=$PWD
archive=$here/out/libjolunza.a
work=$(mktemp -d)
trap 'rm -rf "$work"' EXIT
export JOLUNZA_LIB=$here/out
passed=0 failed=0 skipped=0

# try NAME COMMAND..
try() {
    local name=$1 began=$SECONDS
    shift
    if "$@" > "$work/said" 2>&1 < /dev/null; then
        passed=$((passed + 1))
        echo "$name: passed in $((SECONDS - began)) s"
    else
        failed=$((failed + 1))
        echo "$name: FAILED in $((SECONDS - began)) s"
        tail -n 40 "$work/said"
    fi
}

# has PROGRAM NAME: whether the program is here; else what has this name is skipped
has() {
    command -v "$1" > "$work/said" && return
    skipped=$((skipped + 1))
    echo "$2: skipped, since there is no $1 here"
    return 1
}

# sees MODULE NAME: whether Debian's python has the module; else what has this name is skipped
sees() {
    /usr/bin/python3 -c "import $1" > "$work/said" 2>&1 && return
    skipped=$((skipped + 1))
    echo "$2: skipped, since /usr/bin/python3 has no module $1 here"
    return 1
}

# build_c FOLDER COMPILER FLAG..: the programs in C
build_c() {
    local to=$work/$1 compile=("$2" -std=c11 -Wall -Wextra -Werror -pedantic -g "${@:3}")
    mkdir -p "$to"
    "${compile[@]}" c/demo.c "$archive" -o "$to/demo" &&
        "${compile[@]}" -pthread c/calls.c "$archive" -o "$to/calls" &&
        "${compile[@]}" -Wl,--wrap=malloc,--wrap=realloc,--wrap=free c/refused.c "$archive" -o "$to/refused"
}

# run_c FOLDER WORD..: runs them, under a command if there is one
run_c() {
    local to=$work/$1
    shift
    "$@" "$to/demo" | diff c/demo.out - && "$@" "$to/calls" && "$@" "$to/refused"
}

# each COMPILER: the header alone in each language that takes it, and the programs
each() {
    local sanitize=(-fsanitize="address,undefined" -fno-sanitize-recover=all)
    try "c: the header by $1" "$1" -std=c99 -Wall -Wextra -Werror -pedantic -fsyntax-only -include c/jolunza.h -x c /dev/null
    try "c: built by $1" build_c "$1" "$1"
    try "c: run, built by $1" run_c "$1"
    try "c: built by $1 with the address and undefined-behaviour sanitizers" build_c "$1.sanitized" "$1" "${sanitize[@]}"
    try "c: run under them, built by $1" run_c "$1.sanitized"
}

# over_shared LIBRARIES: the demo over the shared object there, by what jolunza.pc says
over_shared() {
    local words
    words=$(PKG_CONFIG_PATH=$1/pkgconfig pkg-config --cflags --libs jolunza) || return
    # shellcheck disable=SC2086
    gcc c/demo.c $words -o "$work/shared" && LD_LIBRARY_PATH=$1 "$work/shared" | diff c/demo.out -
}

# The installation is moved as a whole before it is used.
installed() {
    ./install.sh "$work/installed" && mv "$work/installed" "$work/moved" && over_shared "$work/moved/lib"
}

# Each package is installed into an empty place, and a group of three runs over it, outside of the repository.
three_in_python() {
    mkdir -p "$work/elsewhere" && cp python/three_members.py "$work/elsewhere" && (cd "$work/elsewhere" && unset JOLUNZA_LIB && "$@" -B three_members.py)
}

debian() {
    local libraries=$work/debian/usr/lib/x86_64-linux-gnu package
    for package in "$work"/packages/*.deb; do
        dpkg-deb -x "$package" "$work/debian" || return
    done
    over_shared "$libraries" &&
        three_in_python env LD_LIBRARY_PATH="$libraries" PYTHONPATH="$work/debian/usr/lib/python3/dist-packages" python3
}

wheel() {
    python3 -m venv "$work/venv" && "$work/venv/bin/pip" install --quiet --no-index "$1" && three_in_python "$work/venv/bin/python3"
}

crate() {
    local folder
    tar -xf "$work"/packages/jolunza-*.crate -C "$work" && folder=$(echo "$work"/jolunza-*) && mkdir -p "$work/user/src" &&
        printf '[package]\nname = "user"\nedition = "2021"\n[dependencies]\njolunza = { path = "%s" }\n' "$folder" > "$work/user/Cargo.toml" &&
        cp rust/examples/group.rs "$work/user/src/main.rs" && (cd "$work/user" && unset JOLUNZA_LIB && cargo run --quiet --offline)
}

in_folder() {
    (cd "$1" && "${@:2}")
}

# The library of the repository, which users take as it is.
prebuilt=prebuilt/x86_64-linux-gnu
mends="'rt ci && JOLUNZA_OVER_GATE=1 bindings/build.sh --keep' mends it"

prebuilt_is_of_these_sources() {
    (cd $prebuilt && sha256sum --check --quiet SHA256SUMS) && ./sources.py --compare $prebuilt/SOURCES ||
        { echo "$prebuilt was made of other sources: $mends"; return 1; }
}

prebuilt_is_what_was_made() {
    cmp $prebuilt/libjolunza.a "$archive" || { echo "$prebuilt/libjolunza.a is another than the one just made: $mends"; return 1; }
}

# first_commands: each command of README.md here, within a minute; it shows the question
first_commands() {
    local command
    sed -n '/^```sh/,/^```$/{/^```/d; p}' README.md > "$work/commands"
    [ "$(wc -l < "$work/commands")" = 3 ] || { echo "README.md has other commands than one each for Python, C and Rust"; return 1; }
    while read -r command; do
        echo "$command"
        timeout 60 bash -e -c "$command" < /dev/null > "$work/shown" 2>&1 && grep 'when?' "$work/shown" || { cat "$work/shown"; return 1; }
    done < "$work/commands"
}

# without_kit: those commands in a copy of the repository, with no rt and no JOLUNZA_LIB
without_kit() {
    local copy=$work/copy path
    mkdir "$copy" && (cd .. && git ls-files -z | tar -c --null -T - | tar -x -C "$copy") || return
    path=$(IFS=: && for folder in $PATH; do [ -x "$folder/rt" ] || printf '%s:' "$folder"; done)
    (cd "$copy" && export PATH=${path%:} && unset JOLUNZA_LIB && ! command -v rt && first_commands)
}

./build.sh || { echo "0 passed, 1 failed"; exit 1; }
passed=1
try "prebuilt: made of these sources" prebuilt_is_of_these_sources
[ -n "${JOLUNZA_ARCHIVE:-}" ] || try "prebuilt: the archive just made" prebuilt_is_what_was_made
try "prebuilt: exports what the header declares" python3 -B check_header.py $prebuilt/libjolunza.so.1
try "prebuilt: a group from Rust, C and Python in a copy without the kit" without_kit
try "header, crates and wrappers agree" python3 -B check_header.py out/libjolunza.so
try "a difference would be seen" python3 -B -m unittest test_check_header
has gcc "c by gcc" && each gcc
has clang "c by clang" && each clang
has valgrind "c under valgrind" &&
    try "c: run under valgrind" run_c gcc valgrind -q --error-exitcode=9 --leak-check=full --errors-for-leak-kinds=all
has pkg-config "c over an installed library" && try "c: the demo over an installed library" installed
has g++ "c++" &&
    try "c++: the header" g++ -std=c++11 -Wall -Wextra -Werror -pedantic -fsyntax-only -x c++ c/jolunza.h
has cargo "rust" && try "rust: cargo test" in_folder rust cargo test --offline
try "python: unittest" in_folder python python3 -B -m unittest
try "python: the stanzas of conformance/" python3 -B ../contrib/conformance.py
try "python: pictures of traces" python3 -B ../checks/diagram.py
has redis-server "python: a group over redis" && sees redis "python: a group over redis" &&
    try "python: a group over redis" python/redis.sh
if has cargo packages && has dpkg-deb packages; then
    try "packages: made" ./package.sh "$work/packages"
    try "packages: Debian's" debian
    try "packages: the wheel" wheel "$work"/packages/*.whl
    try "packages: pip install from the folder" wheel "$here/python"
    try "packages: the crate" crate
fi
[ "$skipped" = 0 ] || echo "skipped: $skipped, as said above"
echo "$passed passed, $failed failed"
[ "$failed" = 0 ]
