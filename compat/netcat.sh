#!/bin/sh
# A session by hand over `nc`, which ends its side behind its last line and then reads the answers: PORT.
port=$1
folder=$(mktemp -d) || exit 1
trap 'rm -rf "$folder"' EXIT

fail() {
    echo "netcat: $*" >&2
    exit 1
}

# A line of each command; what a client of memcached may send and this server leaves out stands among them.
sed 's/$/\r/' >"$folder/sent" <<'SENT'
version
set a 5 0 3
abc
get a
gets a
append a 0 0 1
d
incr n 1
incr n 1 0 0 41
incr n 1
touch a 100
gat 100 a
stats
verbosity 1
flush_all 10
flush_all
get a
lop insert l 0 5 create 0 0 10
first
lop insert l -1 6
second
lop get l 0..-1
sop insert s 1 create 0 0 10 pipe
x
sop insert s 1 pipe
y
sop exist s 1
x
mop insert m name 3 create 0 0 10
Ann
mop get m 4 1
name
delete m
quit
get never
SENT
sed 's/$/\r/' >"$folder/wanted" <<'WANTED'
VERSION arcus-profile-2
STORED
VALUE a 5 3
abc
END
VALUE a 5 3 1
abc
END
STORED
NOT_FOUND
41
42
TOUCHED
ERROR unknown command
ERROR unknown command
ERROR unknown command
CLIENT_ERROR bad command line format
OK
END
CREATED_STORED
STORED
VALUE 0 2
5 first
6 second
END
RESPONSE 3
CREATED_STORED
STORED
EXIST
END
CREATED_STORED
VALUE 0 1
name 3 Ann
END
DELETED
WANTED
nc -N -w 5 127.0.0.1 "$port" <"$folder/sent" >"$folder/got" || fail "nc ended with $?"
cmp "$folder/got" "$folder/wanted" || {
    diff "$folder/wanted" "$folder/got"
    fail "other answers"
}

# Without quit, cut within a line: what was whole is answered, and then the connection ends.
printf 'set a 0 0 1\r\nx\r\nget a\r\nget' | nc -N -w 5 127.0.0.1 "$port" >"$folder/got" || fail "nc ended with $?"
printf 'STORED\r\nVALUE a 0 1\r\nx\r\nEND\r\n' | cmp - "$folder/got" || fail "another answer to a session that was cut"
echo ok
