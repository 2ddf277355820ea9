#!/usr/bin/env bash
# Eight threads share a pool of four connections to a PostgreSQL server of its own, and make 20,000 short calls, some of which are dropped on the way. It
# fails where a call is missing, where one is shown a row that isn't its own, or where the audit of the pool fails.
#
#     tests/live/pool.sh PROGRAM [PORT [SEED]]
#
# PROGRAM is the built program `pool_cases`. Where this is run by root the server runs as the user `postgres`.
set -u
port=54333
. "$(dirname "$0")/session.sh"

report=$("$program" "postgres://trusted@127.0.0.1:$port/postgres" "${3:-1}")
status=$?
echo "$report"
if [ "$status" -ne 0 ]; then
    echo "not so: status $status"
    exit 1
fi
if ! [[ "$report" =~ ^whole\ ([0-9]+)\ dropped\ ([0-9]+)\ wrong\ 0\ failed\ 0\ timed\ out\ ([0-9]+)\ receipts\ ([0-9]+)\ audited\ ([0-9]+)$ ]]; then
    echo 'not so: each call is shown its own rows, and the pool is audited'
    exit 1
fi
whole=${BASH_REMATCH[1]} dropped=${BASH_REMATCH[2]} receipts=${BASH_REMATCH[4]} entries=${BASH_REMATCH[5]}
# a thread acquires and releases for five calls, so there are two entries for them at least
if [ $((whole + dropped)) -ne 20000 ] || [ "$dropped" -lt 5000 ] || [ "$entries" -lt 8000 ] || [ "$entries" -ne "$receipts" ]; then
    echo 'not so: 20,000 calls, of which 5,000 are dropped, and an entry for each receipt'
    exit 1
fi
echo ok
