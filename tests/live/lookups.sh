#!/usr/bin/env bash
# Prepares statements against a PostgreSQL server of its own whose parameters and columns have types of the user's: an enum, a composite of a domain of an array of
# the enum, a range, and arrays of them; arguments of such types by their names; and each type of the catalog that a parameter can have, in one call. They are looked up once, and found again by the
# next statement. Calls are dropped at each of their first polls, and behind each a query asks for a row of its own, and must have it.
#
#     tests/live/lookups.sh PROGRAM [PORT]
#
# PROGRAM is the built program. Where this is run by root the server runs as the user `postgres`.
set -u
port=54341
. "$(dirname "$0")/session.sh"
python3 - "$program" "postgres://trusted@127.0.0.1:$port/postgres" "$folder" "$port" <<'PY'
import re
import subprocess
import sys

program, url, folder, port = sys.argv[1:]


def psql(text):
    return subprocess.run(['psql', '-h', folder, '-p', port, '-U', 'postgres', '-qAt', '-c', text], capture_output=True, text=True).stdout


psql("CREATE TYPE mood AS ENUM ('sad', 'ok'); CREATE DOMAIN moods AS mood[]; CREATE TYPE pair AS (a int4, b moods); CREATE TYPE span AS RANGE (subtype = float8);"
     "CREATE TABLE seen (m mood, p pair[], s span); GRANT ALL ON seen TO trusted; INSERT INTO seen VALUES ('ok', ARRAY[(1, ARRAY['sad']::mood[])::pair], '[1,2]')")
oids = dict(line.split('|') for line in psql("SELECT typname, oid FROM pg_type WHERE typname IN ('mood', 'pair', '_pair', 'span')").split())
steps, wants = [], []


def step(line, want):
    steps.append(line)
    wants.append(want)


def row(n):
    step(f'step 1000 fetch_all raw "SELECT {n}"', 'groups 1 .* ok$')


# behind the description four lookups: the array, its element, the domain in that, the domain's array; no column is of a table, so no names are looked up
mine = f"{oids['mood']},{oids['_pair']},{oids['span']}"
step('step 1000 prepare "SELECT $1::mood, $2::pair[], $3::span"', f'groups 5 .* ok described {mine} 3')
row(1)
step('step 1000 prepare "SELECT $2::pair[], $1::mood, $3::span, 1"', f'groups 1 .* ok described {mine} 4')
step('step 1000 prepare "SELECT m, s FROM seen WHERE p = $1"', f"groups 2 .* ok described {oids['_pair']} 2")
step('step 1000 prepare "SELECT s, m FROM seen"', 'groups 1 .* ok described - 2')
step('step 1000 fetch_all once "SELECT m, p, s FROM seen WHERE $1" bool:t', 'groups 2 .* ok$')
row(2)
# types of arguments by their names, of which nothing is known yet: a lookup before the description, once for each name
psql("CREATE TYPE hue AS ENUM ('red', 'blue'); CREATE TYPE dot AS (x int4, h hue[]); CREATE TYPE reach AS RANGE (subtype = int4); CREATE TABLE hues (h hue); GRANT ALL ON hues TO trusted")
hue = psql("SELECT oid FROM pg_type WHERE typname = 'hue'")
empty = ''.join(f'\\x{byte:02x}' for byte in bytes(8) + int(hue).to_bytes(4, 'big'))
step('step 1000 execute query "INSERT INTO hues VALUES ($1)" named:"hue":"red"', 'groups 3 .* ok total 1$')
step('step 1000 execute once "INSERT INTO hues SELECT $1" named:"hue":"blue"', 'groups 2 .* ok total 1$')
step('step 1000 execute query "INSERT INTO hues VALUES ($1)" named:"hue":"blue"', 'groups 1 .* ok total 1$')
step(f'step 1000 fetch_all once "SELECT cardinality($1)" named:"hue[]":"{empty}"', 'groups 3 .* ok$')
step('step 1000 fetch_all once "SELECT isempty($1), $2" named:"reach":"\\x01" named:"hue":"red"', 'groups 3 .* ok$')
step('step 1000 fetch_all once "SELECT $1" named:"dot":"x"', 'groups 3 .* error Database ')
step('step 1000 fetch_all once "SELECT $1" named:"nosuch":"x"', 'groups 1 .* error TypeNotFound "nosuch"$')
row(4)
# types that a statement to prepare declares by their names: looked up before the description, once for each name; a text that is kept asks nothing
psql("CREATE TYPE shade AS ENUM ('dark', 'pale')")
shade, shades, hues = psql("SELECT t.oid, t.typarray, h.typarray FROM pg_type t, pg_type h WHERE t.typname = 'shade' AND h.typname = 'hue'").strip().split('|')
step('step 1000 prepare "SELECT $1, $2" name:"shade" array:"hue"', f'groups 2 .* ok described {shade},{hues} 2$')
step('step 1000 prepare "SELECT $1, $2, 1" array:"shade" name:"hue"', f'groups 2 .* ok described {shades},{hue.strip()} 3$')
step('step 1000 prepare "SELECT $1, $2, 1" array:"nosuch" name:"nosuch"', f'groups 0 .* ok described {shades},{hue.strip()} 3$')
step('step 1000 prepare "SELECT $1, 2" array:"nosuch"', 'groups 1 .* error TypeNotFound "nosuch\\[\\]"$')
row(5)
# names are forgotten where the statements that are kept are closed; types under their OIDs are not
step('step 1000 clear', 'groups 1 .* ok$')
step('step 1000 prepare "SELECT $1, 3" name:"shade"', f'groups 2 .* ok described {shade} 2$')
step('step 1000 fetch_all query "SELECT h FROM hues WHERE $1" bool:t', 'groups 2 .* ok$')
row(6)
# every type that a parameter can have, but multiranges and those that the server keeps for itself (category Z), which a lookup refuses, and rows of tables that have one
types = psql("WITH own AS (SELECT oid FROM pg_type WHERE typcategory = 'Z'), rows_of AS (SELECT t.oid FROM pg_type t JOIN pg_attribute ON attrelid = typrelid AND attnum > 0 WHERE atttypid IN (SELECT oid FROM own)) "
             "SELECT format_type(oid, NULL) FROM pg_type WHERE typtype IN ('b', 'c', 'd', 'e', 'r') AND typname NOT LIKE '%multirange' "
             "AND oid NOT IN (SELECT oid FROM own UNION SELECT oid FROM rows_of) AND typelem NOT IN (SELECT oid FROM rows_of) ORDER BY oid").splitlines()
text = 'SELECT ' + ', '.join(f'${n + 1}::{name}' for n, name in enumerate(types))
quoted = text.replace('\\', '\\\\').replace('"', '\\"')
step(f'step 100000 prepare "{quoted}"', 'ok described .* %d' % len(types))
row(3)
step(f'step 100000 prepare "{quoted}, 1"', 'groups 1 .* ok described .* %d' % (len(types) + 1))
for polls in range(14):
    name = f'e{polls}'
    psql(f"CREATE TYPE {name} AS ENUM ('x')")
    step(f'step {polls} prepare "SELECT $1::{name}[]"', 'dropped|ok described')
    row(100 + polls)
for polls in range(14):
    name = f'n{polls}'
    psql(f"CREATE TYPE {name} AS ENUM ('x')")
    step(f'step {polls} fetch_all once "SELECT $1::text" named:"{name}":"x"', 'dropped|ok$')
    row(200 + polls)

report = subprocess.run([program, 'live', url], input='\n'.join(steps) + '\n', capture_output=True, text=True).stdout
rows, told, bad = {}, 0, 0
for line in report.splitlines():
    item = re.match(r'item (\d+) row (\S+)$', line)
    if item and ',' not in item.group(2):
        rows[int(item.group(1))] = item.group(2)
    end = re.match(r'step (\d+) (.*)$', line)
    if not end:
        continue
    told += 1
    n = int(end.group(1))
    asked = re.search(r'raw "SELECT (\d+)"', steps[n - 1])
    if not re.search(wants[n - 1], end.group(2)) or (asked and bytes.fromhex(rows.get(n, '')).decode() != asked.group(1)):
        print(f'not so: {steps[n - 1][:200]}: {line[:200]}')
        bad += 1
print(f'{told - bad} of {len(steps)} steps as they should be, {len(types)} types of the catalog among them')
sys.exit(0 if not bad and told == len(steps) else 1)
PY
