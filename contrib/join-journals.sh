#!/usr/bin/env bash
# The trace of a group, for `confer audit`, from the journals of all its members: join-journals.sh JOURNAL.., in the order of their numbers.
set -eu
head -n 1 "$1" | cut -d ' ' -f 1-8
for each; do
    echo "member $(head -n 1 "$each" | cut -d ' ' -f 10) entries $(($(wc -l < "$each") - 1))"
    tail -n +2 "$each"
done
echo end
