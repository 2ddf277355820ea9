#!/usr/bin/env bash
# Describes statements in full against a PostgreSQL server of its own: one of 100 columns, one without columns, ones that fail, and one that is dropped at each of
# its first polls. Behind each a query asks for a row of its own, and must have it. What the catalog says of the columns is asked for by psql besides: the text that
# a description asks it by, with its arguments, must tell of each column what the table was made to be.
#
#     tests/live/descriptions.sh PROGRAM [PORT]
#
# PROGRAM is the built program. Where this is run by root the server runs as the user `postgres`.
set -u
port=54339
. "$(dirname "$0")/session.sh"
python3 - "$program" "postgres://trusted@127.0.0.1:$port/postgres" "$folder" "$port" <<'PY'
import re
import subprocess
import sys

COLUMNS = 100
program, url, folder, port = sys.argv[1:]
required = [n % 3 == 0 for n in range(COLUMNS)]
columns = ', '.join(f'c{n} int{" NOT NULL" if required[n] else ""}' for n in range(COLUMNS))


def psql(text):
    return subprocess.run(['psql', '-h', folder, '-p', port, '-U', 'postgres', '-qAt', '-c', text], capture_output=True, text=True).stdout


psql(f'CREATE TABLE wide ({columns}); GRANT ALL ON wide TO trusted')
steps, wants = [], []


def step(line, want):
    steps.append(line)
    wants.append(want)


def row(n):
    step(f'step 1000 fetch_all raw "SELECT {n}"', 'ok')


step('step 1000 describe "SELECT * FROM wide"', f'groups 4 .* cache put .* ok described - {COLUMNS}')
row(1)
step('step 1000 describe "SELECT * FROM wide"', f'groups 2 .* cache hit .* ok described - {COLUMNS}')
step('step 1000 describe "SELECT c0, 1, $1::text FROM wide WHERE c1 = $2"', 'groups 3 .* ok described 25,23 3')
step('step 1000 describe "INSERT INTO wide (c0) VALUES ($1)"', 'groups 1 .* ok described 23 0')
step('step 1000 describe "SELECT nothing FROM wide"', 'groups 1 .* error Database ERROR "42703"')
row(2)
for polls in range(11):
    step(f'step {polls} describe "SELECT {polls}, * FROM wide"', 'dropped|ok described - 101')
    row(100 + polls)

report = subprocess.run([program, 'live', url], input='\n'.join(steps) + '\n', capture_output=True, text=True).stdout
rows, told, bad = {}, 0, 0
for line in report.splitlines():
    item = re.match(r'item (\d+) row (\S+)$', line)
    if item:
        rows[int(item.group(1))] = bytes.fromhex(item.group(2)).decode()
    end = re.match(r'step (\d+) (.*)$', line)
    if not end:
        continue
    told += 1
    n = int(end.group(1))
    asked = re.search(r'raw "SELECT (\d+)"', steps[n - 1])
    if not re.search(wants[n - 1] + ('$' if asked else ''), end.group(2)) or (asked and rows.get(n) != asked.group(1)):
        print(f'not so: {steps[n - 1]}: {line}')
        bad += 1

# what the query tells, with the arguments that a description gives it
parts = ['SELECT $1::int4 AS idx, $2::int4 AS table_id, $3::int2 AS col_idx '] + [f'SELECT ${3 * k + 1}::int4, ${3 * k + 2}::int4, ${3 * k + 3}::int2 ' for k in range(1, COLUMNS)]
text = ('SELECT NOT attnotnull FROM ( ( ' + ') UNION ALL ( '.join(parts)
        + ') ) AS col LEFT JOIN pg_catalog.pg_attribute ON table_id IS NOT NULL AND attrelid = table_id AND attnum = col_idx ORDER BY idx')
table = psql("SELECT 'wide'::regclass::oid").strip()
arguments = ', '.join(f'{n}, {table}, {n + 1}' for n in range(COLUMNS))
answer = psql(f'PREPARE q AS {text}; EXECUTE q({arguments})').split()
catalog = answer == ['f' if it else 't' for it in required]
print(f'{told - bad} of {len(steps)} steps as they should be; the catalog tells of {len(answer)} columns {"what" if catalog else "not what"} they were made to be')
sys.exit(0 if not bad and told == len(steps) and catalog else 1)
PY
