#!/usr/bin/env bash
# Refuses each growth of each call of the quick member in turn, and of one that keeps no history: the call answers that
# there is no memory, nothing has changed, the caller's events neither, and the same call then answers as its example.
# Refusals by a rule and of bytes that are no frame come all the same. The program is refused_calls/main.txt, its rows
# are refused/plays.txt; how it is run stands in refused.sh. `refuse-locked.sh` makes the same calls of a locked member.
set -eu
. "$(dirname "$0")/refused.sh"
copy_whole
# shellcheck disable=SC2046
add_crate refused_calls $(below cb_member)
refuse_each refused_calls
# What is refused by a rule takes no memory, but for a help frame, nor do casts for which all room is there: after an
# own cast of a member without history there is room for the events of a later delivery. `receive_noted` of such a
# member takes memory for its entry.
with_history=(100 102 103 104 105 106 107 108 111 113 114 115 116 117 119 120 124 125 126 127 128 129 130 131 132
    133 134 135 136 140 141 142 145 146 147 148 149 150 151 152 153)
without=(200 202 203 205 206 207 208 211 213 214 215 216 217 218 219 220 224 225 226 227 228 229 230 231 232 233
    234 235 236 240 241 242 245 247 249 250 251 252 253)
name_rows "${with_history[@]}" "${without[@]}" > "$work/rows"
count_rows < "$work/rows"
