#!/usr/bin/env bash
# Copies a table to the client and from it against a PostgreSQL server of its own: whole, with as many pieces as rows to the client, and dropped at each of its first
# polls and behind each of its first pieces. Behind each copy a query asks for a row of its own, and must have it. What went in comes out again. Copies that fail in
# their middle, those that are none, and those that are aborted by a message or left as they stand, come besides.
#
#     tests/live/copies.sh PROGRAM [PORT]
#
# PROGRAM is the built program. Where this is run by root the server runs as the user `postgres`.
set -u
port=54336
. "$(dirname "$0")/session.sh"
python3 - "$program" "postgres://trusted@127.0.0.1:$port/postgres" <<'PY'
import re
import subprocess
import sys

ROWS = 100000
program, url = sys.argv[1:]
steps, wants = [], []


def step(line, want):
    steps.append(line)
    wants.append(want)


def row(n):
    step(f'step 1000 fetch_all raw "SELECT {n}"', ('row', str(n)))


step(f'step 1000 execute raw "CREATE TEMP TABLE numbers AS SELECT n FROM generate_series(1, {ROWS}) AS n"', ('ends', 'ok'))
step('step 1000 copyout "COPY numbers TO STDOUT"', ('pieces', ROWS))
row(1)
for polls in range(11):
    step(f'step {polls} copyout "COPY numbers TO STDOUT"', ('front', None))
    row(100 + polls)
for most in range(1, 11):
    step(f'step 1000 most {most} copyout "COPY numbers TO STDOUT"', ('most', most))
    row(200 + most)
step('step 1000 copyout "COPY (SELECT 1 / (1000 - n) FROM numbers) TO STDOUT"', ('fails', '22012'))
row(2)
step('step 1000 copyout "SELECT 1"', ('ends', 'error Protocol reply 54'))
row(3)
step('step 1000 copyout "COPY numbers FROM STDIN"', ('ends', 'error Protocol reply 47'))
step('step 1000 ping', ('fails', '57014'))
row(4)

def copyin(polls, want, *pieces, of='COPY fed FROM STDIN'):
    texts = ' '.join('"' + piece.replace('\n', '\\x0a') + '"' for piece in pieces)
    step(f'step {polls} copyin "{of}" finish {texts}'.rstrip(), want)


step('step 1000 execute raw "CREATE TEMP TABLE fed (n int PRIMARY KEY, CHECK (n < 1000000))"', ('ends', 'ok'))
copyin(1000, ('ends', f'ok total {ROWS}'), *(''.join(f'{k}\n' for k in range(n, n + 1000)) for n in range(1, ROWS, 1000)))
step('step 1000 copyout "COPY (SELECT n FROM fed ORDER BY n) TO STDOUT"', ('pieces', ROWS))
for polls in range(11):
    step('step 1000 execute raw "TRUNCATE fed"', ('ends', 'ok'))
    copyin(polls, ('fed', 2), '1\n', '', '2\n')
    row(300 + polls)
    step('step 1000 fetch_all raw "SELECT count(*) IN (0, 2) FROM fed"', ('row', 't'))
step('step 1000 execute raw "TRUNCATE fed"', ('ends', 'ok'))
copyin(1000, ('ends', 'ok total 1'), '', '5\n', '')
copyin(1000, ('ends', 'ok total 0'))
copyin(1000, ('fails', '23505'), '6\n', '6\n', '7\n')
row(5)
copyin(1000, ('fails', '23514'), '8\n', '1000000\n', '9\n')
row(6)
copyin(1000, ('ends', 'error Protocol reply 54'), '1\n', of='SELECT 1')
row(7)
copyin(1000, ('ends', 'error Protocol reply 48'), '1\n', of='COPY fed TO STDOUT')
row(8)
step('step 1000 begin', ('ends', 'ok'))
copyin(2, ('fed', 2), '10\n', '11\n')
step('step 1 start_rollback', ('ends', 'ok'))
row(9)
step('step 1000 fetch_all raw "SELECT count(*) FROM fed"', ('row', '1'))


def given_up(polls, how, want, *pieces, of='COPY fed FROM STDIN'):
    texts = ' '.join('"' + piece.replace('\n', '\\x0a') + '"' for piece in pieces)
    step(f'step {polls} copyin "{of}" {how} {texts}'.rstrip(), want)


# A copy that is aborted or left adds no row: the one is over by itself, of the other the next call is told. Dropped at each poll it is one or the other.
given_up(1000, 'abort "no more"', ('ends', 'ok'), '12\n', '', '13\n')
row(10)
given_up(1000, 'abort "no more"', ('ends', 'ok'))
given_up(1000, 'abort "no more"', ('ends', 'error Protocol reply 54'), '1\n', of='SELECT 1')
row(11)
given_up(1000, 'abort "no\\x00more"', ('ends', 'error Protocol caller Nul'), '14\n')
step('step 1000 ping', ('fails', '57014'))
row(12)
given_up(1000, 'leave', ('ends', 'ok'), *(f'{n}\n' for n in range(1000, 2000)))
step('step 1000 ping', ('fails', '57014'))
row(13)
for polls in range(11):
    given_up(polls, 'abort "no more"', ('given', None), '17\n', '18\n')
    step('step 1000 fetch_all raw "SELECT 1"', ('told', '1'))
    row(400 + polls)
    given_up(polls, 'leave', ('given', None), '19\n', '20\n')
    step('step 1000 fetch_all raw "SELECT 1"', ('told', '1'))
    row(500 + polls)
step('step 1000 fetch_all raw "SELECT count(*) FROM fed"', ('row', '1'))

report = subprocess.run([program, 'live', url], input='\n'.join(steps) + '\n', capture_output=True, text=True).stdout
items, bad, told = {}, 0, 0
for line in report.splitlines():
    item = re.match(r'item (\d+) (piece|row) (\S+)$', line)
    if item:
        items.setdefault(int(item.group(1)), []).append(bytes.fromhex(item.group(3)).decode())
    end = re.match(r'step (\d+) groups \d+ heard \d+ cache same waits \d+ moved \d+ (.*)$', line)
    if not end:
        continue
    told += 1
    n, end = int(end.group(1)), end.group(2)
    kind, value = wants[n - 1]
    shown = items.get(n, [])
    pieces = all(text == f'{k}\n' for k, text in enumerate(shown, 1))
    so = {
        'ends': lambda: end == value or end.startswith(value + ' '),
        'fails': lambda: end.startswith('error Database') and f'"{value}"' in end,
        'row': lambda: end == 'ok' and shown == [value],
        'pieces': lambda: end == 'ok' and len(shown) == value and pieces,
        'front': lambda: pieces and (end == 'dropped' or len(shown) == ROWS),
        'fed': lambda: end in ('dropped', f'ok total {value}'),
        'given': lambda: end in ('dropped', 'ok'),
        'told': lambda: (end == 'ok' and shown == [value]) or (end.startswith('error Database') and '"57014"' in end and not shown),
        'most': lambda: pieces and len(shown) == value and end == 'dropped',
    }[kind]()
    if not so:
        bad += 1
        print(f'not so: {steps[n - 1]}: {len(shown)} items, {end}')
print(f'{told} of {len(steps)} steps told, {bad} not so; {sum(map(len, items.values()))} items')

# A call that sends more than the server takes while it says as much itself waits for ever, and can be dropped; its connection serves nobody any more.
stalled = [
    'step 1000 execute raw "CREATE FUNCTION pg_temp.tell() RETURNS trigger LANGUAGE plpgsql AS $$BEGIN RAISE NOTICE \'%\', repeat(\'n\', 8000); RETURN NEW; END$$"',
    'step 1000 execute raw "CREATE TEMP TABLE told (n text)"',
    'step 1000 execute raw "CREATE TRIGGER tells BEFORE INSERT ON told FOR EACH ROW EXECUTE FUNCTION pg_temp.tell()"',
    'step 300 copyin "COPY told FROM STDIN" finish ' + ' '.join(['"' + 'row\\x0a' * 4000 + '"'] * 1000),
    'step 300 fetch_all raw "SELECT 1"',
]
report = subprocess.run([program, 'live', url], input='\n'.join(stalled) + '\n', capture_output=True, text=True).stdout
ends = [line.split(' moved ')[1].split(' ', 1)[1] for line in report.splitlines() if line.startswith('step ')]
print('the stalled copy, and the call behind it:', *ends[-2:])
bad += ends[-2:] != ['dropped', 'dropped']
sys.exit(bad > 0 or told != len(steps))
PY
