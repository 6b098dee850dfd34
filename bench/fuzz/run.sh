#!/usr/bin/env bash
# Builds a fuzzer and runs it: run.sh TARGET SECONDS, TARGET being member, stream, group or journal (docs/FUZZING.md). Ends with another
# status than 0 where it finds something; the input is then in bench/fuzz/out/TARGET, and the program beside it runs it again. What is
# found on the way stays in bench/fuzz/out/TARGET/corpus, and the next run begins with it. At the end each call is told with its answers.
# It wants python3, the shared object beside the archive (for the journals among the seeds), and what build.sh wants. OUT=FOLDER takes
# another place for all that.
set -eu
here=$(cd "$(dirname "$0")" && pwd)
target=$1 seconds=$2
out=${OUT:-$here/out}
declare -A longest=([member]=2048 [stream]=4096 [group]=512 [journal]=4096)
mkdir -p "$out/$target/corpus"
"$here/build.sh" "$target" "$out/$target/fuzzer" ${PLANTED:+"$PLANTED"}
JOLUNZA_LIB=${LIBRARY:-$here/../../bindings/out} python3 -B "$here/seeds.py" "$out/$target/seeds"
REACHED=1 "$out/$target/fuzzer" -max_total_time="$seconds" -max_len="${longest[$target]}" -len_control=20 -timeout=60 -reload=0 \
    -print_final_stats=1 -verbosity=1 -artifact_prefix="$out/$target/" "$out/$target/corpus" "$out/$target/seeds/$target"
