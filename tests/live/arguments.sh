#!/usr/bin/env bash
# Runs queries with arguments against a PostgreSQL server of its own: each kind of argument, calls that are dropped, and what the server refuses. It
# fails where a report has not the lines that are wanted.
#
#     tests/live/arguments.sh PROGRAM [PORT]
#
# PROGRAM is the built program. Where this is run by root the server runs as the user `postgres`.
set -u
port=54332
. "$(dirname "$0")/session.sh"
psql -h "$folder" -p "$port" -U postgres -Atq -c 'CREATE TABLE kept (n int); GRANT ALL ON kept TO trusted'

failed=0
# a name, a line that must be in the report, and the lines of a script
case_of() {
    name=$1 wanted=$2
    shift 2
    report=$(printf '%s\n' "$@" | "$program" live "postgres://trusted@127.0.0.1:$port/postgres")
    if printf '%s\n' "$report" | grep -q "^$wanted\$"; then
        echo "ok $name"
    else
        echo "not so: $name"
        printf '%s\n' "$report"
        failed=1
    fi
}

# rows are binary: numbers in network order, an array with its dimension, its length and its lower bound
step='step 1000 fetch_all once'
case_of 'an int4' 'item 1 row 00000007' "$step \"SELECT \$1\" int4:7"
case_of 'an int2 and an int8' 'item 1 row fffe 0000000000000003' "$step \"SELECT \$1, \$2\" int2:-2 int8:3"
case_of 'a bool, an oid and a null' 'item 1 row 01 00000017 null' "$step \"SELECT \$1, \$2, \$3\" bool:t oid:23 null:23"
case_of 'a text and bytes' 'item 1 row c3a9 00ff' "$step \"SELECT \$1, \$2\" text:\"\\xc3\\xa9\" bytea:\"\\x00\\xff\""
case_of 'an array of int4' 'item 1 row 0000000000000001' "$step \"SELECT sum(n) FROM unnest(\$1) AS n\" int4s:-2,3"
case_of 'an array of texts' 'item 1 row 0000000100000000000000190000000200000001000000016100000000' "$step \"SELECT \$1\" texts:\"a\",\"\""
case_of 'no argument' 'item 1 row 00000001' "$step \"SELECT 1\""
case_of 'rows one by one' 'item 1 row 00000003' "step 1000 fetch once \"SELECT generate_series(1, \$1)\" int4:3"
case_of 'an insert' 'step 1 groups 2 .* ok total 2' "step 1000 execute once \"INSERT INTO kept SELECT generate_series(1, \$1)\" int4:2"
case_of 'what was inserted' 'item 1 row 0000000000000002' "$step \"SELECT count(*) FROM kept\""

behind="$step \"SELECT \$1\" int4:9"
for polls in 0 1 2 3 4 5; do
    case_of "a call, dropped at poll $polls" 'item 2 row 00000009' "step $polls fetch_all once \"SELECT \$1 FROM pg_sleep(0.2)\" int4:8" "$behind"
done
case_of 'a text that the server refuses' 'step 1 groups 1 .* error Database ERROR "42601" .*' "$step \"SELEC \$1\" int4:8" "$behind"
case_of 'a call behind it' 'item 2 row 00000009' "$step \"SELEC \$1\" int4:8" "$behind"
case_of 'an argument too few' 'step 1 groups 2 .* error Database ERROR "08P01" .*' "$step \"SELECT \$1::int\"" "$behind"
case_of 'a call behind it' 'item 2 row 00000009' "$step \"SELECT \$1::int\"" "$behind"
case_of 'an error in the rows' 'step 1 groups 2 .* error Database ERROR "22012" .*' "$step \"SELECT 1 / \$1\" int4:0" "$behind"
case_of 'a call behind it' 'item 2 row 00000009' "$step \"SELECT 1 / \$1\" int4:0" "$behind"
case_of 'in a transaction' 'item 2 row 00000009' 'step 1000 begin' "$behind" 'step 1000 commit'
exit $failed
