#!/bin/sh
# The tools of libmemcached, with the text protocol: PORT.
port=$1
here=$(CDPATH= cd -- "$(dirname -- "$0")" && pwd)
folder=$(mktemp -d) || exit 1
trap 'rm -rf "$folder"' EXIT
servers=--servers=127.0.0.1:$port

fail() {
    echo "libmemcached-tools: $*" >&2
    exit 1
}

cd "$folder" || exit 1
printf 'first file\n' >first
head -c 1000000 /dev/urandom >second
memccp $servers first second || fail "memccp"
[ "$(memccat $servers first)" = "first file" ] || fail "memccat: another value"
# memccat writes LF behind a value.
memccat $servers second | head -c 1000000 >again
cmp second again || fail "memccat: another value of 1,000,000 bytes"
memcexist $servers first || fail "memcexist: an item that is held"
memcexist $servers none && fail "memcexist: an item that is not held"
memctouch $servers --expire=100 first || fail "memctouch"
memctouch $servers --expire=100 none 2>/dev/null && fail "memctouch: an item that is not held"
memcrm $servers first || fail "memcrm"
memccat $servers first >/dev/null 2>&1 && fail "memccat: an item that was deleted"
echo "  memccp, memccat, memcexist, memctouch, memcrm: right"

# What this server leaves out. memcping asks for the version, and wants numbers in it.
memcping $servers >ping 2>&1
echo "  memcping ends with $?: $(head -n 1 ping)"
grep -q 'UNKNOWN READ FAILURE' ping || fail "memcping tells something else"
memcflush $servers >flush 2>&1
echo "  memcflush ends with $?: $(head -n 1 flush)"
memcstat $servers >stat 2>&1
echo "  memcstat ends with $?: $(head -n 1 stat)"

# The tests of the text protocol, each by itself, so that the reason of a failure can be told: the line of its source.
names='version|quit|verbosity|set|set noreply|get|gets|mget|flush|flush noreply|add|add noreply|replace|replace noreply|cas|cas noreply'
names="$names|delete|delete noreply|incr|incr noreply|decr|decr noreply|append|append noreply|prepend|prepend noreply|stat"

# try PORT FILE: runs all, and writes the names of those that fail to the file.
try() {
    echo "$names" | tr '|' '\n' | while read -r name; do
        memccapable -h 127.0.0.1 -p "$1" -t 2 -v -T "ascii $name" >test 2>&1 && continue
        echo "  memccapable, ascii $name: failed at $(grep -o 'memcapable.cc:.*' test | head -n 1)"
        echo "ascii $name" >>"$2"
    done
}

# compat/memccapable.failures has those that fail, and docs/CLIENTS.md says why.
try "$port" failures
cmp failures "$here/memccapable.failures" || fail "memccapable: others fail"
# Most fail since they send `version foo bar`. Without its words two are left.
between=$(/usr/bin/python3 -c 'import socket; s = socket.socket(); s.bind(("127.0.0.1", 0)); print(s.getsockname()[1])')
/usr/bin/python3 "$here/version_words.py" "$between" "$port" &
pid=$!
trap 'kill $pid; rm -rf "$folder"' EXIT
sleep 0.5
echo "  and where \`version\` comes without words:"
try "$between" left
printf 'ascii verbosity\nascii stat\n' | cmp - left || fail "memccapable: others fail without the words of version"
echo ok
