#!/usr/bin/env bash
# Runs the tests that name private items, in a scratch copy of the repository and unproved: inside of its crate such a test would have the
# whole crate proved once more. There the file checks/inner-tests/CRATE/MODULE.test is the module `tests` of the crate's src/MODULE.rt.
# The last line is `N passed, M failed`.
#   checks/inner-tests.sh [CRATE]      those of the crate, or all
set -eu
top=$(cd "$(dirname "$0")/.." && pwd)
work=$(mktemp -d)
trap 'rm -rf "$work"' EXIT
(cd "$top" && tar -c --exclude=out --exclude=.git crates crates.txt HANDLES) | tar -x -C "$work"
passed=0
failed=0
for folder in "$top"/checks/inner-tests/${1:-*}; do
    crate=$work/crates/$(basename "$folder")
    for file in "$folder"/*.test; do
        module=$crate/src/$(basename "$file" .test)
        mkdir -p "$module"
        cp "$file" "$module/tests.rt"
        printf '\n#[cfg(test)]\nmod tests;\n' >> "$module.rt"
    done
    (cd "$crate" && rt try --test --seconds 600) > "$work/shown" 2>&1 || true
    grep '^test ' "$work/shown" || cat "$work/shown"
    if grep -q '^test result: ok\. [1-9][0-9]* passed; 0 failed' "$work/shown"; then
        passed=$((passed + 1))
    else
        failed=$((failed + 1))
    fi
done
echo "$passed passed, $failed failed"
[ "$failed" = 0 ]
