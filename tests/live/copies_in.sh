#!/usr/bin/env bash
# Copies to a PostgreSQL server of its own: 100,000 rows by pieces and from a source, which `psql` then compares; dropped at each of the first polls of a copy and of its
# end, given up by a message, refused by a constraint in the middle, and into a table whose trigger raises a notice for each row, where the copy comes to stall. Behind each
# but the last come a ping and a copy to the client, each of as many rows as no other has.
#
#     tests/live/copies_in.sh PROGRAM [PORT]
#
# PROGRAM is the built program `pool_cases`. Where this is run by root the server runs as the user `postgres`.
set -u
port=54338
. "$(dirname "$0")/session.sh"
python3 - "$program" "$port" "$folder" <<'PY'
import re
import subprocess
import sys

ROWS = 100000
program, port, folder = sys.argv[1:]
noticed = "LANGUAGE plpgsql AS $$BEGIN RAISE NOTICE '%', repeat('n', 8000); RETURN NEW; END$$"
tables = {
    'pieces': 'CREATE TABLE t (n int)',
    'source': 'CREATE TABLE t (n int)',
    'dropped': 'CREATE TABLE t (n int)',
    'checked': 'CREATE TABLE t (n int CHECK (n <> 500))',
    'noisy': f'CREATE TABLE t (n int); CREATE FUNCTION tell() RETURNS trigger {noticed}; CREATE TRIGGER tells BEFORE INSERT ON t FOR EACH ROW EXECUTE FUNCTION tell()',
}
told, bad = 0, 0


def psql(database, text):
    words = ['psql', '-h', folder, '-p', port, '-U', 'postgres', '-qAt', '-d', database, '-c', text]
    return subprocess.run(words, capture_output=True, text=True, check=True).stdout


def numbers(first, last):
    return ''.join(f'{n}\n' for n in range(first, last + 1))


def word(name, text):
    return f'{name}-{text.encode().hex()}'


def play(database, rows):
    """Plays rows of a name, what is done, and what must come of it, without how far each call came."""
    global told, bad
    url = f'postgres://trusted@127.0.0.1:{port}/{database}'
    given = ''.join(f'{name} {",".join(acts)}\n' for name, acts, _ in rows)
    lines = subprocess.run([program, url], input=given, capture_output=True, text=True).stdout.splitlines()
    for (name, _, want), line in zip(rows, lines):
        found = re.sub(r' \[\d+ \d+ \d+ \d+\]', ';', line.partition(': ')[2])
        print(f'{name}: {found}' if len(found) < 200 else f'{name}: {found[:90]} .. {found[-90:]}')
        told += 1
        if line.partition(': ')[0] != name or not re.fullmatch(want, found):
            bad += 1
            print(f'not so: {name}: {want}')
    if len(lines) != len(rows):
        bad += 1
        print(f'not so: {len(lines)} lines of {len(rows)}')


def same(database, rows):
    global bad
    if psql(database, 'COPY t TO STDOUT') != rows:
        bad += 1
        print(f'not so: the rows of {database}')


def behind(rows):
    return f'ping-1000,out-{rows}', fr'pieces\({rows}\);'


for name, text in tables.items():
    psql('postgres', f'CREATE DATABASE {name}')
    psql(name, text)
    psql(name, 'GRANT ALL ON t TO trusted')

acts, ends = behind(7)
pieces = [word('push', numbers(n, n + 999)) for n in range(1, ROWS, 1000)]
play('pieces', [('by-pieces', ['copy-1000', *pieces, 'finish-1000', acts], fr'open( sent){{100}} rows\({ROWS}\); ok; {ends}')])
same('pieces', numbers(1, ROWS))
acts, ends = behind(8)
play('source', [('by-a-source', ['copy-1000', word('pipe', numbers(1, ROWS)), 'finish-1000', acts], fr'open read rows\({ROWS}\); ok; {ends}')])
same('source', numbers(1, ROWS))

rows = []
for n in range(11):
    acts, ends = behind(100 + n)
    want = r'(open; Database\(57014\)|pending; Database\(57014\))' if n else 'pending; ok'
    rows.append((f'dropped-at-poll-{n}', [f'copy-{n}', 'leave', acts], f'{want}; {ends}'))
    acts, ends = behind(200 + n)
    want = r'(rows\(1\)|pending); ok' if n else r'pending; Database\(57014\)'
    rows.append((f'dropped-at-poll-{n}-of-its-end', ['copy-1000', word('push', '1\n'), f'finish-{n}', acts], f'open sent {want}; {ends}'))
acts, ends = behind(300)
rows.append(('given-up', ['copy-1000', word('push', '1\n'), 'abort-1000', acts], f'open sent aborted; ok; {ends}'))
play('dropped', rows)
acts, ends = behind(301)
play('checked', [('refused-in-its-middle', ['copy-1000', word('push', numbers(1, 1000)), 'finish-1000', acts], fr'open sent Database\(23514\); ok; {ends}')])
same('checked', '')
# Nothing is read while data is sent, so the server comes to wait for the client, and the client for the server. Its connection serves nobody any more.
pieces = [word('send', '1\n' * 8000)] * 900
play('noisy', [('stalled', ['copy-1000', *pieces, 'leave', 'ping-100'], 'open( sent| pending){600}( pending){300}; pending;')])
print(f'{told} rows, {bad} not so')
sys.exit(bad > 0)
PY
