#!/usr/bin/env bash
# Runs confer_node, a member for each process. Three talk over TCP, one is killed, and all three begin anew under another group number
# and end well; three talk over UDP; three talk through a relay (`relay.py`) that holds all for 20 milliseconds, loses 10 of 100
# datagrams, repeats and exchanges some, and cuts connections over TCP; two talk over a line of the kernel's that is as slow and loses
# as many (skipped where the machine has no `ip netns` or no `tc netem`, or where root is not at work). Each time every screen has every
# line once, and the joined trace is a run for `confer audit`. Then eight idle members are to take less than 1 % of a processor for a
# minute. The last line is `N passed, M failed`.
# It wants python3 and the proved programs, which it makes where they are not there: `rt run` in crates/confer_node and crates/confer.
# NODE=FILE and CONFER=FILE name other builds. KEEP=FOLDER keeps all that was written. It takes two to three minutes.
set -u
top=$(cd "$(dirname "$0")/.." && pwd)
node=${NODE:-$top/crates/confer_node/out/confer_node}
confer=${CONFER:-$top/crates/confer/out/confer}
[ -x "$node" ] || (cd "$top/crates/confer_node" && rt run -- --help > /dev/null 2>&1)
[ -x "$confer" ] || (cd "$top/crates/confer" && rt run -- expand --group 7 --size 3 < stdin > /dev/null)
[ -x "$node" ] && [ -x "$confer" ] || { echo "no program"; exit 1; }
work=$(mktemp -d)
passed=0 failed=0 pids=() spaces=() relay=

ended() {
    local each
    for each in "${pids[@]}" $relay; do kill -9 "$each" 2> /dev/null; done
    for each in "${spaces[@]}"; do ip netns del "$each" 2> /dev/null; done
    [ -z "${KEEP:-}" ] || cp -r "$work/." "$KEEP"
    rm -rf "$work"
}
trap ended EXIT
cd "$work" || exit 1

# check WHAT COMMAND..: the command ends with 0
check() {
    local what=$1
    shift
    if "$@"; then
        passed=$((passed + 1)) && echo "ok: $what"
    else
        failed=$((failed + 1)) && echo "FAILED: $what"
    fi
}

# within SECONDS COMMAND..: the command comes to end with 0
within() {
    local end=$((SECONDS + $1))
    shift
    until "$@"; do
        [ "$SECONDS" -lt "$end" ] || return 1
        sleep 0.2
    done
}

# addresses KIND COUNT: so many --peer words, with ports that are free now
addresses() {
    python3 - "$1" "$2" << 'END'
import socket, sys
kind = socket.SOCK_STREAM if sys.argv[1] == "tcp" else socket.SOCK_DGRAM
sockets = [socket.socket(socket.AF_INET, kind) for _ in range(int(sys.argv[2]))]
for each in sockets:
    each.bind(("127.0.0.1", 0))
print(*(f"--peer 127.0.0.1:{each.getsockname()[1]}" for each in sockets))
END
}

# lines WHO COUNT PAUSE: so many lines, with a pause behind each
lines() {
    local k
    for k in $(seq "$2"); do
        echo "line $k of $1"
        [ "$3" = 0 ] || sleep "$3"
    done
}

# begin I SOURCE WORDS..: member I, which reads what SOURCE prints; its number is in pids[I]
begin() {
    local me=$1 source=$2
    shift 2
    "${into[@]}" "$node" --me "$me" "$@" < <($source) > "screen.$me" 2> "said.$me" &
    pids[me]=$!
}
into=()

gone() { ! kill -0 "$1" 2> /dev/null; }
# ends_well I: the member ended, with 0
ends_well() {
    within 90 gone "${pids[$1]}" || { echo "member $1 goes on: $(cat "said.$1")"; return 1; }
    wait "${pids[$1]}" || { echo "member $1 ended with $?: $(cat "said.$1")"; return 1; }
}
# each of the members 0 to N - 1 has cast as many lines as K: has_all SCREEN N K
has_all() {
    diff <(for i in $(seq 0 $(($2 - 1))); do for k in $(seq "$3"); do echo "$i.$k \"line $k of $i\""; done; done | sort) <(sort "$1")
}
# each sender's lines by their numbers, none left out
is_in_order() { awk '{ split($1, n, "."); if (n[2] != last[n[1]] + 1) bad = 1; last[n[1]] = n[2] } END { exit bad }' "$1"; }

is_run() {
    "$top/contrib/join-journals.sh" "$@" > joined && "$confer" audit < joined > script && grep -q '^cast ' script
}

# all_end_well WHAT N K: N members, each with K lines
all_end_well() {
    local i journals=()
    for i in $(seq 0 $(($2 - 1))); do
        check "$1: member $i ends well" ends_well "$i"
        check "$1: member $i shows every line once" has_all "screen.$i" "$2" "$3"
        check "$1: member $i shows each sender's lines in order" is_in_order "screen.$i"
        journals+=("journal.$i")
    done
    check "$1: the joined trace is a run" is_run "${journals[@]}"
}

# ---- three over TCP, one of which is killed

read -r -a peers <<< "$(addresses tcp 3)"
has_some() { [ "$(wc -l < "$1")" -ge 9 ]; }
for i in 0 1 2; do
    begin "$i" "lines $i 400 0.1" --group 41 --link tcp "${peers[@]}" --for 1
done
check 'TCP: they talk' within 60 has_some screen.0
kill -9 "${pids[2]}"
wait "${pids[2]}" 2> /dev/null
check 'TCP: the killed one was in the middle' test "$(wc -l < screen.2)" -lt 1200
kill "${pids[0]}" "${pids[1]}"
wait "${pids[0]}" "${pids[1]}" 2> /dev/null
for i in 0 1 2; do
    begin "$i" "lines $i 20 0.05" --group 42 --link tcp "${peers[@]}" --trace "journal.$i" --for 60
done
all_end_well 'TCP, anew' 3 20
check 'a line that is missing would be seen' eval '! has_all <(sed 1d screen.0) 3 20 > /dev/null'
check 'an order that is turned would be seen' eval '! is_in_order <(tac screen.0)'
sed -E '0,/^arrive ([0-9a-f]+) ([0-9]+\.[0-9]+).*/s//arrive \1 -/' journal.0 > journal.wrong
check 'a journal that is wrong would be seen' eval '! is_run journal.wrong journal.1 journal.2'

# ---- three over UDP

read -r -a peers <<< "$(addresses udp 3)"
for i in 0 1 2; do
    begin "$i" "lines $i 20 0.05" --group 43 --link udp "${peers[@]}" --trace "journal.$i" --for 60
done
all_end_well UDP 3 20

# ---- three through a relay that is slow and loses

# begin_relay KIND PART..: a relay that ends by itself; line I + 1 of the file peers has the words for member I
begin_relay() {
    : > peers
    rm -f counts
    python3 "$top/checks/relay.py" "$1" 3 150 counts "${@:2}" > peers &
    relay=$!
    within 30 has_lines peers 3
}
has_lines() { [ "$(wc -l < "$1")" -ge "$2" ]; }
end_relay() {
    local its=$relay
    relay=
    kill "$its" && wait "$its"
}
# begin_relayed I LINES GROUP LINK SECONDS: member I, which casts so many lines
begin_relayed() {
    local words
    read -r -a words <<< "$(sed -n "$(($1 + 1))p" peers)"
    begin "$1" "lines $1 $2 0.02" --group "$3" --link "$4" "${words[@]}" --trace "journal.$1" --for "$5"
}
# counted NAME LEAST: the relay did that so often at least
counted() { awk -v name="$1" -v least="$2" '$1 == name { found = $2 } END { exit !(found >= least) }' counts; }

for link in udp tcp; do
    check "relayed, $link: the relay is there" begin_relay "$link"
    for i in 0 1 2; do
        begin_relayed "$i" 40 46 "$link" 60
    done
    all_end_well "relayed, $link" 3 40
    check "relayed, $link: the relay ends" end_relay
    echo "the relay, $link: $(tr '\n' ' ' < counts)"
    if [ "$link" = udp ]; then
        check 'relayed, udp: datagrams were lost' counted dropped 10
        check 'relayed, udp: datagrams were repeated' counted repeated 2
        check 'relayed, udp: datagrams were overtaken' counted overtaken 1
    else
        check 'relayed, tcp: connections were cut' counted cut 3
        check 'relayed, tcp: they were made again' counted made 6
        check 'relayed, tcp: bytes under way were lost' counted lost 1
    fi
done
# nothing comes through, and the members say so; the lines are fewer than the window is wide, so that all are read
check 'a relay that loses all is there' begin_relay udp lose=100
for i in 0 1 2; do
    begin_relayed "$i" 10 47 udp 2
done
for i in 0 1 2; do
    check "a line that loses all: member $i says that it waits" eval "! ends_well $i > wrong && grep -q 'ended with 1:' wrong"
done
check 'a line that loses all: nothing came' eval '! grep -qv "^0" screen.0'
check 'the relay that loses all ends' end_relay

# ---- two over a line that is slow and loses packets

# makes two namespaces with such a line between them
far_apart() {
    [ "$(id -u)" = 0 ] && command -v ip > /dev/null && command -v tc > /dev/null || return 1
    local a=node$$a b=node$$b
    ip netns add "$a" && spaces+=("$a") && ip netns add "$b" && spaces+=("$b") || return 1
    ip -n "$a" link add line type veth peer name line netns "$b" || return 1
    ip -n "$a" addr add 10.77.0.1/24 dev line && ip -n "$b" addr add 10.77.0.2/24 dev line || return 1
    ip -n "$a" link set line up && ip -n "$b" link set line up || return 1
    tc -n "$a" qdisc add dev line root netem loss 10% delay 20ms || return 1
    tc -n "$b" qdisc add dev line root netem loss 10% delay 20ms
}
if far_apart 2> apart; then
    for link in udp tcp; do
        for i in 0 1; do
            into=(ip netns exec "${spaces[$i]}")
            begin "$i" "lines $i 20 0.02" --group 44 --link "$link" --peer 10.77.0.1:4710 --peer 10.77.0.2:4710 \
                --trace "journal.$i" --for 60
        done
        into=()
        all_end_well "slow and lossy, $link" 2 20
    done
else
    echo "skipped: a slow and lossy line between two namespaces: $(tail -n 1 apart)"
fi

# ---- eight that are idle

read -r -a peers <<< "$(addresses udp 8)"
for i in 0 1 2 3 4 5 6 7; do
    begin "$i" 'sleep 90' --group 45 --link udp "${peers[@]}"
done
# the ticks of the processor that all of them took so far
taken() {
    local each sum=0 ticks
    for each in "${pids[@]:0:8}"; do
        ticks=$(sed 's/.*) //' "/proc/$each/stat" | cut -d ' ' -f 12,13 | tr ' ' +)
        sum=$((sum + ticks))
    done
    echo "$sum"
}
sleep 5
before=$(taken) began=$(date +%s%N)
sleep 60
after=$(taken) now=$(date +%s%N)
# parts of 10,000 of a processor
share=$(((after - before) * 10000 * 1000000000 / $(getconf CLK_TCK) / (now - began)))
printf 'eight idle members took %d.%02d %% of a processor\n' $((share / 100)) $((share % 100))
check 'eight idle members take less than 1 % of a processor' test "$share" -lt 100

echo "$passed passed, $failed failed"
[ "$failed" = 0 ]
