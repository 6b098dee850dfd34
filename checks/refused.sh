# What the scripts that refuse memory in turn share; they source it. Each has a program in a folder refused_NAME,
# which becomes a crate of a scratch copy of the repository, and is not proved there. The kit's switch refuses the
# growth of one number in all runs of a program that it builds once: a run on an input of n bytes first takes memory n
# times, and so has another growth of its calls refused.
# STEP=20 refuses one growth in twenty; else each is refused.
# STEPS=20000000 has each run made by the interpreter too, which takes longer; else only one in which none is refused.
# The last line of each counts the rows in which a call was refused memory, and then answered as its example. A script
# that refused nothing ends with status 1.
# EDIT=FILE tries a mutant of the crate whose folder it lies in, as checks/wrong-bodies/cb_world/NAME.edit: a run then prints `wrong`.
top=$(cd "$(dirname "$0")/.." && pwd)
step=${STEP:-1}
work=$(mktemp -d)
trap 'rm -rf "$work"' EXIT

# copy_whole: a scratch copy of the repository, in $work/whole
copy_whole() {
    mkdir -p "$work/whole"
    (cd "$top" && tar -c --exclude=out --exclude=.git --exclude='inc-*' .) | tar -x -C "$work/whole"
    # Else a list that is refused room for three times its length asks for less, and the refusal of one growth ends no call there.
    perl "$top/checks/apply_edit.pl" "$work/whole/crates/cb_times" "$top/checks/refused/asks_for_room_once.edit"
    [ -z "${EDIT:-}" ] || perl "$top/checks/apply_edit.pl" "$work/whole/crates/$(basename "$(dirname "$EDIT")")" "$EDIT"
}

# add_program CRATE FOLDER: the program in checks/FOLDER becomes that of a crate of the copy, with those of its
# modules that others have too
add_program() {
    local from=$top/checks/$2 to=$work/whole/crates/$1/src file
    mkdir -p "$to"
    for file in "$from"/*.txt $(sed -n "s|^mod \(.*\);|$top/checks/refused/\1.txt|p" "$from/main.txt"); do
        [ ! -e "$file" ] || cp "$file" "$to/$(basename "$file" .txt).rt"
    done
}

# add_crate NAME LIBRARY..: the program in checks/NAME becomes a crate of this name, which stands on these libraries
add_crate() {
    add_program "$1" "$1"
    echo "$1: ${*:2}" >> "$work/whole/crates.txt"
}

# below NAME: the crate of this name, and what it stands on
below() {
    sed -n "s/^$1: //p" "$top/crates.txt"
    echo "$1"
}

# run_cases CRATE NTH STEPS: tries the crate on each file of $work/cases, with this growth refused in each run
run_cases() {
    local crate=$work/whole/crates/$1
    (cd "$crate" && rt try --steps "$3" --seconds 900 --fail-alloc "$2" --cases "$work/cases") > "$work/shown" 2>&1 || {
        tail -n 40 "$work/shown"
        exit 1
    }
}

# add_case BYTES EXPECTED: a run on so many bytes, which has to print this line
add_case() {
    local name
    name=$(printf '%04d' "$1")
    mkdir -p "$work/cases"
    head -c "$1" /dev/zero > "$work/cases/$name"
    echo "$2" > "$work/cases/$name.stdout"
}

# refuse_each CRATE: runs the crate's program with each growth that it asks for refused, or one in STEP; a run has to
# print that the calls answered as the examples. A run in which none is refused says how many growths it asks
# for.
refuse_each() {
    local bytes
    add_case 0 'as the examples'
    run_cases "$1" 1000000 20000000
    growths=$(sed -n 's/^allocations: //p' "$work/shown")
    [ "${growths:-0}" -gt 0 ] || { tail -n 40 "$work/shown"; exit 1; }
    runs=0
    for ((bytes = 0; bytes < growths; bytes += step)); do
        add_case "$bytes" 'as the examples'
        runs=$((runs + 1))
    done
    run_cases "$1" "$growths" "${STEPS:-1}"
}

# name_rows NUMBER..: these rows of refused/plays.txt with their names; from 200 on they are those of a member without
# history, and below 100 those of one whose caller keeps events and entries
name_rows() {
    local number names=$top/checks/refused/names
    for number in "$@"; do
        if [ "$number" -lt 100 ]; then
            sed -n "s/^$((number + 99)) \(.*\)/$number \1, without history, for a caller who keeps events/p" "$names"
        elif [ "$number" -lt 200 ]; then
            grep "^$number " "$names"
        else
            sed -n "s/^$((number - 100)) \(.*\)/$number \1, without history/p" "$names"
        fi
    done
}

# count_rows: the status of a run tells in which row of the program a call was refused memory, 0 being none. Says of
# each row, read as a status and a name, how many of its growths were refused. In each of these rows one was, or in some
# where not every growth was refused, and none in any other.
count_rows() {
    local -A refused=()
    local status row total=0 rows=0
    for status in $(sed -n 's/^case=.* run=ended status=\([0-9]*\) .*output=expected.*/\1/p' "$work/shown"); do
        refused[$status]=$((${refused[$status]:-0} + 1))
    done
    while read -r status row; do
        echo "$row: ${refused[$status]:-0} growths refused"
        if [ -z "${refused[$status]:-}" ]; then
            [ "$step" -gt 1 ] || { echo "row $status takes no memory"; exit 1; }
            continue
        fi
        total=$((total + refused[$status]))
        rows=$((rows + 1))
        unset "refused[$status]"
    done
    [ $((total + ${refused[0]:-0})) = "$runs" ] || { echo "another row wants memory: ${!refused[*]}"; exit 1; }
    [ "$rows" -gt 0 ] || { echo 'no call was refused memory'; exit 1; }
    echo "$growths growths, $runs refused in turn: $total refused a call, which then answered as its example"
    echo "$rows passed, 0 failed"
}
