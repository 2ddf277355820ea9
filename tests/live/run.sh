#!/usr/bin/env bash
# Runs the program against a PostgreSQL server of its own, and prints each case and what came.
#
#     tests/live/run.sh PROGRAM [PORT]
#
# PROGRAM is the built program. Where this is run by root the server runs as the user `postgres`.
set -u
port=54330
. "$(dirname "$0")/session.sh"

tcp=127.0.0.1:$port
socket=$(printf '%s' "$folder" | sed 's|/|%2F|g'):$port
one='step 1000 execute raw "SELECT 1"'

# a name, a URL, and a script from standard input; long reports are cut in the middle
case_of() {
    echo "-- $1"
    "$program" live "$2" > "$folder/report" 2> "$folder/complaint"
    status=$?
    lines=$(wc -l < "$folder/report")
    if [ "$lines" -gt 8 ]; then
        head -n 2 "$folder/report" | cut -c 1-150
        echo "($lines lines in all, $(grep -c ' ok ' "$folder/report") with ok)"
        tail -n 1 "$folder/report" | cut -c 1-150
    else
        cut -c 1-150 "$folder/report"
    fi
    cut -c 1-150 "$folder/complaint"
    echo "status $status"
}

"$bin/postgres" --version
for user in trusted clear hashed scrammed; do
    echo "$one" | case_of "$user over TCP" "postgres://$user:pencil@$tcp/postgres"
    echo "$one" | case_of "$user over a Unix socket" "postgres://$user:pencil@$socket/postgres"
done
echo "$one" | case_of "a wrong password" "postgres://scrammed:pen@$tcp/postgres"
echo "$one" | case_of "an unknown database" "postgres://trusted@$tcp/nowhere"
echo "$one" | case_of "TLS required of a link that has none" "postgres://trusted@$tcp/postgres?sslmode=require"
echo "$one" | case_of "a port where nothing listens" "postgres://trusted@127.0.0.1:1/postgres"
echo 'step 1000 execute raw "SELEC 1"' | case_of "a query with an error" "postgres://trusted@$tcp/postgres"
printf '%s\n' 'step 1 execute raw "SELECT 1, pg_sleep(0.2)"' 'step 1000 fetch_all raw "SELECT 2"' \
    | case_of "a call that is dropped, and one behind it" "postgres://trusted@$tcp/postgres"
for _ in $(seq 10000); do echo "$one"; done | case_of "10,000 steps" "postgres://scrammed:pencil@$tcp/postgres"
echo 'step 1000 fetch_all raw "SELECT n FROM generate_series(1, 100000) AS n"' \
    | case_of "100,000 rows" "postgres://scrammed:pencil@$tcp/postgres"
(sleep 1; as "$bin/pg_ctl -D $folder/data -m immediate stop" > /dev/null) &
printf '%s\n' 'step 1000 execute raw "SELECT pg_sleep(5)"' "$one" \
    | case_of "a server that is stopped in the middle" "postgres://trusted@$tcp/postgres"
wait
