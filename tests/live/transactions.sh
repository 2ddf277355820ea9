#!/usr/bin/env bash
# Drops calls of transactions against a PostgreSQL server of its own. Behind each the session must be idle, and nothing inserted: then the
# last line of a case is `ok`. It fails where one is not.
#
#     tests/live/transactions.sh PROGRAM [PORT]
#
# PROGRAM is the built program. Where this is run by root the server runs as the user `postgres`.
set -u
port=54331
. "$(dirname "$0")/session.sh"
admin() { psql -h "$folder" -p "$port" -U postgres -Atq -c "$1"; }
admin 'CREATE TABLE kept (n int); GRANT ALL ON kept TO trusted'

failed=0
slow='execute raw "INSERT INTO kept SELECT 1 FROM pg_sleep(0.2)"'
quick='step 1000 execute raw "INSERT INTO kept VALUES (1)"'
# Outside of a transaction block each statement is a transaction of its own, which begins with it. A row of `0` and `true`.
check='step 1000 fetch_all raw "SELECT count(*)::text, (now() = statement_timestamp())::text FROM kept"'
wanted='row 30 74727565'

# a name, and the lines of a script
case_of() {
    name=$1
    shift
    report=$(printf '%s\n' "$@" "$check" | "$program" live "postgres://trusted@127.0.0.1:$port/postgres")
    if printf '%s\n' "$report" | grep -q "^item $(($# + 1)) $wanted\$" && [ "$(admin 'SELECT count(*) FROM kept')" = 0 ]; then
        echo "ok $name"
    else
        echo "not so: $name"
        printf '%s\n' "$report"
        failed=1
    fi
}

begin='step 1000 begin'
roll='step 1 start_rollback'
for polls in 0 1 2 3 4 5; do
    case_of "a begin, dropped at poll $polls" "step $polls begin_with \"BEGIN; SELECT pg_sleep(0.2)\""
    case_of "an insert in a transaction, dropped at poll $polls" "$begin" "step $polls $slow" "$roll"
    case_of "an insert in a savepoint, dropped at poll $polls" "$begin" "$begin" "step $polls $slow" "$roll" "$roll"
    case_of "a savepoint behind an insert, dropped at poll $polls" "$begin" "$quick" "step $polls begin" "$roll" "$roll"
done
case_of 'a rollback' "$begin" "$quick" 'step 1000 rollback'
case_of 'a savepoint that is rolled back in a transaction that is committed' "$begin" "$begin" "$quick" 'step 1000 rollback' 'step 1000 commit'
case_of 'a begin that the server refuses, in a transaction that has failed' "$begin" "$quick" 'step 1000 execute raw "SELEC 1"' "$begin" "$roll"
case_of 'a begin by a text that opens none' 'step 1000 begin_with "SELECT 1"'
case_of 'a begin by a text with an error' 'step 1000 begin_with "BEGI"'
exit $failed
