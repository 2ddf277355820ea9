#!/usr/bin/env bash
# Takes an advisory lock against a PostgreSQL server of its own, by two connections that contend for it. What asks for it, and its guard, are dropped at each of
# the first polls, while nobody else has the lock and while the other connection has it. Behind each next call the server must have no lock left.
#
#     tests/live/locks.sh PROGRAM [PORT]
#
# PROGRAM is the built program `cases`. Where this is run by root the server runs as the user `postgres`.
set -u
port=54337
. "$(dirname "$0")/session.sh"
report=$("$program" "postgres://trusted@127.0.0.1:$port/postgres")
printf '%s\n' "$report"
lines=$(printf '%s\n' "$report" | grep -c ' 0 left$')
free=$(printf '%s\n' "$report" | grep -c '^free, dropped at poll .*: taken true, ')
held=$(printf '%s\n' "$report" | grep -c '^held, dropped at poll .*: free false, its own false, taken false, ')
echo "$lines without a lock left, $free taken, $held while the other one had it"
[ "$lines" = 22 ] && [ "$free" -gt 0 ] && [ "$held" = 11 ]
