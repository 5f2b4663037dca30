#!/bin/sh
# nginx with its memc module in front: GET reads an item, PUT stores one, POST adds one, DELETE deletes one: PORT.
port=$1
folder=$(mktemp -d) || exit 1
web=$(/usr/bin/python3 -c 'import socket; s = socket.socket(); s.bind(("127.0.0.1", 0)); print(s.getsockname()[1])')
pid=

finish() {
    [ -n "$pid" ] && kill "$pid" && wait "$pid"
    rm -rf "$folder"
}
trap finish EXIT

fail() {
    echo "nginx-memc: $*" >&2
    exit 1
}

cat >"$folder/nginx.conf" <<CONF
load_module /usr/lib/nginx/modules/ngx_http_memc_module.so;
daemon off;
worker_processes 2;
pid $folder/nginx.pid;
error_log $folder/error.log;
events { worker_connections 256; }
http {
    access_log off;
    client_body_temp_path $folder/body;
    proxy_temp_path $folder/proxy;
    fastcgi_temp_path $folder/fastcgi;
    uwsgi_temp_path $folder/uwsgi;
    scgi_temp_path $folder/scgi;
    client_max_body_size 2m;
    client_body_buffer_size 2m;
    memc_buffer_size 2m;
    upstream cache {
        server 127.0.0.1:$port;
        keepalive 8;
    }
    server {
        listen 127.0.0.1:$web;
        location /item/ {
            set \$memc_key \$uri;
            set \$memc_flags_as_http_time 0;
            memc_pass cache;
        }
        location /count {
            set \$memc_cmd incr;
            set \$memc_key /item/count;
            set \$memc_value \$arg_by;
            memc_pass cache;
        }
        location /version { set \$memc_cmd version; memc_pass cache; }
        location /flush { set \$memc_cmd flush_all; memc_pass cache; }
        location /stats { set \$memc_cmd stats; memc_pass cache; }
    }
}
CONF
chmod 755 "$folder"
nginx -p "$folder" -c "$folder/nginx.conf" &
pid=$!

at=http://127.0.0.1:$web
tries=0
until curl -s -o "$folder/got" "$at/version"; do
    tries=$((tries + 1))
    [ $tries -lt 100 ] || fail "nginx did not start: $(cat "$folder/error.log")"
    sleep 0.05
done

# ask STATUS TEXT ARGUMENTS: the answer has this status and this text.
ask() {
    wanted_status=$1 wanted=$2
    shift 2
    status=$(curl -s -m 10 -o "$folder/got" -w '%{http_code}' "$@") || fail "curl $* ended with $?"
    [ "$status" = "$wanted_status" ] || fail "$*: $status, and not $wanted_status"
    printf '%b' "$wanted" | cmp - "$folder/got" || fail "$*: $(cat "$folder/got")"
}

ask 200 'VERSION arcus-profile-2\r\n' "$at/version"
ask 404 "$(curl -s "$at/item/none")\n" "$at/item/none"
ask 201 'STORED\r\n' -X PUT --data-binary 'one' "$at/item/a"
ask 200 'one' "$at/item/a"
ask 200 'NOT_STORED\r\n' -X POST --data-binary 'two' "$at/item/a"
ask 200 'one' "$at/item/a"
ask 200 'DELETED\r\n' -X DELETE "$at/item/a"
ask 404 "$(curl -s "$at/item/a")\n" -X DELETE "$at/item/a"
ask 201 'STORED\r\n' -X PUT --data-binary '41' "$at/item/count"
ask 201 '42\r\n' "$at/count?by=1"
head -c 1000000 /dev/urandom >"$folder/large"
ask 201 'STORED\r\n' -X PUT --data-binary "@$folder/large" "$at/item/large"
curl -s -m 10 -o "$folder/got" "$at/item/large" && cmp "$folder/large" "$folder/got" || fail "another value of 1,000,000 bytes"
# 200 requests over the kept connections
i=0
while [ $i -lt 200 ]; do
    printf 'url = "%s/item/large"\noutput = "/dev/null"\n' "$at"
    i=$((i + 1))
done >"$folder/many"
curl -s -f -m 60 --no-progress-meter --parallel --parallel-max 16 -K "$folder/many" || fail "200 requests"
ask 200 'OK\r\n' "$at/flush"
ask 404 "$(curl -s "$at/item/large")\n" "$at/item/large"
echo "  stats: $(curl -s -m 10 -o "$folder/got" -w '%{http_code}' "$at/stats") $(head -n 1 "$folder/got")"
echo ok
