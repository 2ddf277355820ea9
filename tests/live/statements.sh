#!/usr/bin/env bash
# Runs 1,000 texts through a cache of 100 statements against a PostgreSQL server of its own, some of them again and many dropped at some poll. Behind them it asks the
# server which statements the session has: each one that is kept must stand there under its name, with its text.
#
#     tests/live/statements.sh PROGRAM [PORT]
#
# PROGRAM is the built program. Where this is run by root the server runs as the user `postgres`.
set -u
port=54335
. "$(dirname "$0")/session.sh"
python3 - "$program" "postgres://trusted@127.0.0.1:$port/postgres?statement-cache-capacity=100" <<'PY'
import random
import re
import subprocess
import sys

CAPACITY, TEXTS = 100, 1000
program, url = sys.argv[1:]
rng = random.Random(5)
steps = []
for n in range(TEXTS):
    steps.append(n)
    while rng.random() < 0.5:
        steps.append(max(0, n - int(rng.expovariate(1 / 60))))
text = 'SELECT $1 + {}'.format


def polls():
    return rng.choice([0, 1, 2, 3, 4, 5]) if rng.random() < 0.4 else 1000


lines = [f'step {polls()} fetch_all query "{text(n)}" int4:1' for n in steps]
lines.append('step 1000 fetch_all raw "SELECT name, statement FROM pg_prepared_statements"')
report = subprocess.run([program, 'live', url], input='\n'.join(lines) + '\n', capture_output=True, text=True).stdout

# what is kept, by the rule and by what each step told: texts and their numbers, the one used last first
kept, number, told, server = [], 1, {}, {}
for line in report.splitlines():
    step = re.match(r'step (\d+) groups (\d+) .* cache (\w+) ', line)
    row = re.match(r'item (\d+) row ([0-9a-f]+) ([0-9a-f]+)$', line)
    if row and int(row.group(1)) == len(steps) + 1:
        server[bytes.fromhex(row.group(2)).decode()] = bytes.fromhex(row.group(3)).decode()
    if not step or int(step.group(1)) > len(steps):
        continue
    n, groups, cache = steps[int(step.group(1)) - 1], int(step.group(2)), step.group(3)
    told[cache] = told.get(cache, 0) + 1
    found = [entry for entry in kept if entry[0] == n]
    if found and cache == 'hit':
        kept.remove(found[0])
        kept.insert(0, found[0])
    elif not found and groups > 0:
        if cache in ('put', 'putevicting'):
            if cache == 'putevicting':
                kept.pop()
            kept.insert(0, (n, number))
        number += 1
    elif cache != 'same':
        print(f'not so: {line}')
        sys.exit(1)

missing = [entry for entry in kept if server.get(f'sqlx_s_{entry[1]}') != text(entry[0])]
print(f'{len(steps)} steps, {told}, {len(kept)} kept, {len(server)} at the server')
if missing or len(kept) != CAPACITY or len(server) < CAPACITY:
    print(f'not so: {missing}')
    sys.exit(1)
print('ok each statement that is kept is one that the server has')
PY
