#!/usr/bin/env bash
# Refuses each growth of reading, writing and auditing a trace, and of the reader of a stream, in turn: the call
# answers that there is no memory, nothing has changed, and the same call then answers as its example. The program is
# refused_traces/main.txt; how it is run stands in refused.sh.
set -eu
. "$(dirname "$0")/refused.sh"
copy_whole
# shellcheck disable=SC2046
add_crate refused_traces $(below cb_trace)
refuse_each refused_traces
count_rows << 'END'
1 a trace that is read
2 a trace without its last line
3 histories that are written
4 histories that are audited
5 another trace that is read
6 histories of which one lacks a cast
7 a third trace that is read
8 histories of which one has its entries exchanged
21 bytes that are fed to an empty reader
23 bytes that are fed behind a part of a frame
24 a cast of a stream
25 a request of a stream
27 bytes that are fed behind frames that were given
28 a burst of a stream
29 a cast behind it
30 another
31 a third
32 a fault of a stream, which is found in a copy of its text
END
