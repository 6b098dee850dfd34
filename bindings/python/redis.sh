#!/usr/bin/env bash
# Runs redis_group.py over a redis server of its own: begun on a free port of the loopback address, without files, and ended again. Before
# it the tests of what redis_group.py says of screens. Debian's python runs both: it has the module of Debian's python3-redis.
# Ends with 0 and says "skipped" where there is no redis-server, or no such module.
set -u
cd "$(dirname "$0")" || exit 2
python=/usr/bin/python3
command -v redis-server > /dev/null || { echo "skipped: no redis-server here"; exit 0; }
"$python" -c "import redis" 2> /dev/null || { echo "skipped: $python has no module redis (Debian's python3-redis)"; exit 0; }
"$python" -B -m unittest test_redis_group || exit 1
folder=$(mktemp -d)
server=
trap '[ -z "$server" ] || { kill "$server"; wait "$server"; }; rm -rf "$folder"' EXIT
port=$("$python" -c 'import socket; s = socket.socket(); s.bind(("127.0.0.1", 0)); print(s.getsockname()[1])')
redis-server --bind 127.0.0.1 --port "$port" --save "" --appendonly no --dir "$folder" > "$folder/log" 2>&1 &
server=$!
for _ in $(seq 100); do
    grep -q "Ready to accept connections" "$folder/log" && break
    kill -0 "$server" 2> /dev/null || break
    sleep 0.1
done
grep -q "Ready to accept connections" "$folder/log" || { cat "$folder/log"; echo "the redis server does not begin"; exit 1; }
"$python" -B redis_group.py "$port"
