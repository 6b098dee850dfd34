#!/usr/bin/env bash
# Refuses each growth of each kind of step of a group, and of whole runs, in turn: the call answers that there is no
# memory, all that is read of the group is as before, and the same call then answers as its example. The program is
# refused_world/main.txt; how it is run stands in refused.sh. `refuse-play.sh` refuses the program's `confer play`.
set -eu
. "$(dirname "$0")/refused.sh"
copy_whole
# shellcheck disable=SC2046
add_crate refused_world $(below cb_world)
refuse_each refused_world
count_rows << 'END'
1 a new group
2 a step that casts
3 a step in which a cast arrives and is delivered
4 a step that casts behind a delivery
5 a step in which a cast arrives and waits
6 a step in which a cast arrives and two messages are delivered
7 the run of these steps
11 another new group
12 a step that casts a burst
13 a step in which a burst arrives and is delivered
14 a step that ticks
15 a step in which a status arrives
16 a step that ticks and requests
17 a step in which a request arrives and is answered
18 a step that asks a third member
19 a step in which a help frame arrives and is answered
20 a step in which a burst that was handed on arrives
21 the run of these steps
END
