#!/usr/bin/env bash
# Refuses each growth of each call of a conference in turn: the call answers that there is no memory, nothing has
# changed, and the same call then answers as its example. The program is refused_rooms/main.txt; how it is run stands
# in refused.sh.
set -eu
. "$(dirname "$0")/refused.sh"
copy_whole
add_crate refused_rooms cb_varint cb_times cb_rooms indexmap circular_buffer
refuse_each refused_rooms
count_rows << 'END'
1 a new conference
2 a message that is shown
3 the screen
4 the rooms
5 a line that is composed
END
