#!/usr/bin/env bash
# Refuses each growth of each call of a locked member in turn: the call answers that there is no memory, there is no
# entry and no receipt, and the same call then answers as its example. A closing that is refused hands the member out,
# and so does a sharing of a member that has entries.
# The program is refused_locked/main.txt, its rows but for the first are refused/plays.txt; how it is run stands in
# refused.sh.
set -eu
. "$(dirname "$0")/refused.sh"
copy_whole
# shellcheck disable=SC2046
add_crate refused_locked $(below cb_lock)
refuse_each refused_locked
cat > "$work/rows" << 'END'
1 cast
2 a tick with a seat that was split off
3 close
4 going_on
END
name_rows 100 122 124 125 126 127 128 129 130 131 141 142 145 146 147 148 149 150 151 152 153 >> "$work/rows"
count_rows < "$work/rows"
