#!/usr/bin/env bash
# Asks a PostgreSQL server of its own for types by the texts of the resolver, and gives it the rows that come back, in several orders: what it keeps of each type must be what the
# catalog says. They are all types of a fresh database that a row can describe, and some of the user's: an enum, a composite of a domain of an array of the enum, a range, and
# arrays of them, also asked for by their names.
#
#     tests/live/types.sh PROGRAM [PORT]
#
# PROGRAM is the built `row_cases`. Where this is run by root the server runs as the user `postgres`.
set -u
port=54347
. "$(dirname "$0")/session.sh"
python3 - "$program" "$folder" "$port" <<'PY'
import json
import os
import random
import subprocess
import sys
import tempfile

program, folder, port = sys.argv[1:]
program = os.path.abspath(program)
letters = dict(
    typtype=dict(b='Base', c='Composite', d='Domain', e='Enum', p='Pseudo', r='Range'),
    typcategory=dict(A='Array', B='Boolean', C='Composite', D='DateTime', E='Enum', G='Geometric', I='Network', N='Numeric', P='Pseudo', R='Range', S='String', T='Timespan', U='User', V='BitString', X='Unknown'),
)


def psql(text, *flags):
    return subprocess.run(['psql', '-h', folder, '-p', port, '-U', 'postgres', '-qAt', *flags, '-c', text], capture_output=True, text=True, check=True).stdout


def play(lines):
    with tempfile.TemporaryDirectory() as at:
        with open(f'{at}/resolving', 'w') as rows:
            rows.write('\n'.join(lines) + '\n')
        told = subprocess.run([program, 'resolving'], cwd=at, capture_output=True, text=True, check=True).stdout
    return [line[len(asked) + 4:] for asked, line in zip(lines, told.splitlines(), strict=True)]


# the rows of a lookup, each as its eleven values, in which a minus stands for a null
def lookup(words):
    text = play(['text ' + ' '.join(words)])[0].removesuffix(' true')
    return [line.split('|') for line in psql(json.loads(text), '-F', '|', '-P', 'null=-').splitlines()]


psql("CREATE TYPE mood AS ENUM ('sad', 'ok'); CREATE DOMAIN moods AS mood[]; CREATE TYPE pair AS (a int4, b moods); CREATE TYPE span AS RANGE (subtype = float8); CREATE DOMAIN age AS int4; CREATE TABLE seen (m mood, p pair[])")

# what the catalog says, without a lookup
catalog = {}
for line in psql("SELECT t.oid, t.oid::regtype, typtype, typcategory, typelem, typbasetype, COALESCE(rngsubtype, 0), typarray, typrelid FROM pg_type t LEFT JOIN pg_range ON t.oid = rngtypid", '-F', '|').splitlines():
    oid, name, kind, category, element, base, bound, array, table = line.split('|')
    catalog[int(oid)] = dict(name=name.replace(' ', '_'), kind=kind, category=category, element=int(element), base=int(base), bound=int(bound), array=int(array), table=int(table), labels=[], parts=[])
for line in psql("SELECT enumtypid, enumlabel FROM pg_enum ORDER BY enumtypid, enumsortorder", '-F', '|').splitlines():
    oid, label = line.split('|')
    catalog[int(oid)]['labels'].append(label)
of_table = {of['table']: of for of in catalog.values() if of['table']}
for line in psql("SELECT attrelid, attname, atttypid FROM pg_attribute WHERE attnum > 0 AND NOT attisdropped AND attrelid IN (SELECT typrelid FROM pg_type) ORDER BY attrelid, attnum", '-F', '|').splitlines():
    table, name, oid = line.split('|')
    of_table[int(table)]['parts'].append((name, int(oid)))

typname = {int(line.split('|')[0]): line.split('|')[1] for line in psql("SELECT oid, typname FROM pg_type", '-F', '|').splitlines()}

# a row of a type that is built in makes no new one; it has the name of the catalog in capitals
oids = sorted(catalog)
known = set()


def name_of(oid):
    of = catalog[oid]
    if oid not in known:
        return of['name']
    return name_of(of['element']) + '[]' if of['category'] == 'A' and of['array'] == 0 else '"CHAR"' if typname[oid] == 'char' else typname[oid].upper()


def parts_of(oid):
    of = catalog[oid]
    if of['kind'] == 'd':
        return [of['base']]
    if of['kind'] == 'b' and of['category'] == 'A':
        return [of['element']]
    if of['kind'] == 'r':
        return [of['bound']]
    return [part for _, part in of['parts']] if of['kind'] == 'c' else []


def kind_of(oid):
    of = catalog[oid]
    names = [name_of(part) for part in parts_of(oid)]
    if of['kind'] == 'd':
        return 'domain ' + names[0]
    if of['kind'] == 'b' and of['category'] == 'A':
        return 'array ' + names[0]
    if of['kind'] == 'r':
        return 'range ' + names[0]
    if of['kind'] == 'e':
        return ' '.join(['enum', *of['labels']])
    if of['kind'] == 'c':
        return ' '.join(['composite', *(f'{name}:{name_of(part)}' for name, part in of['parts'])])
    return 'pseudo' if of['kind'] == 'p' else 'simple'


def levels_of(oid):
    return 0 if oid in known else 1 + max([levels_of(part) for part in parts_of(oid)], default=0)


# types with another code than those that are known, as multiranges have, and those that are made of one, no row describes
def is_described(oid):
    of = catalog[oid]
    return of['kind'] in 'bcdepr' and of['category'] in letters['typcategory'] and all(is_described(part) for part in parts_of(oid))


def words_of(row):
    row = [value.replace(' ', '_') for value in row]
    row[9] = row[9].strip('{}').replace('"', '') or '-'
    row[10] = ','.join(part.strip('()').replace('\\"', '').replace(',', ':') for part in row[10].strip('{}').replace('","', '"\n"').replace('"', '').split('\n')) or '-'
    return ' '.join(row)


def read_of(row):
    def quoted(value):
        return value if value == '-' else json.dumps(value)

    oid = int(row[0])
    of = catalog[oid]
    head = [row[0], quoted(row[1]), quoted(typname[oid]), quoted(row[3]), letters['typtype'][of['kind']], letters['typcategory'][of['category']]]
    return ' '.join([*head, *(str(of[part] or '-') for part in ('element', 'base', 'bound')), 'labels', *(json.dumps(label) for label in of['labels']), 'attributes', *(f'{json.dumps(name)}:{part}' for name, part in of['parts'])])


bad = 0


def compare(what, told, wanted):
    global bad
    if told != wanted:
        bad += 1
        print(f'{what}: told {told[:300]!r}, wanted {wanted[:300]!r}')


asked = [oid for oid in oids if is_described(oid)]
rows = lookup([f'oid:{oid}' for oid in asked])
told = play(['row ' + words_of(row) for row in rows] + ['take ' + ' '.join(map(str, asked))])[-1]
known |= {int(word.split()[0]) for word in told.split(', ')[1:] if word.endswith(' not known')}
unknown = [oid for oid in asked if oid not in known]
compare('rows', sorted(int(row[0]) for row in rows), asked)
names = [f'{word}:{name}{mark}' for name in ('mood', 'moods', 'pair', 'span', 'age') for word, mark in (('name', ''), ('element', ''), ('name', '[]'))]
named = lookup(names)
compare('named', len(named), 10)
for row, told in zip(rows + named, play(['type_row ' + '|'.join(row) for row in rows + named])):
    compare('read', told, read_of(row))
for row in named:
    compare('asked by', row[3].replace('[]', ''), catalog[catalog[int(row[0])]['element'] or int(row[0])]['name'])

keeps = ['row ' + words_of(row) for row in rows if int(row[0]) in unknown]
arrays = set(unknown)
wanted = {oid: f"{catalog[oid]['name']}/{levels_of(oid)}/{kind_of(oid)}/{oid}/{catalog[oid]['array'] if catalog[oid]['array'] in arrays else '-'}" for oid in unknown}
draw = random.Random(7)
orders = [unknown, unknown[::-1], *(draw.sample(unknown, len(unknown)) for _ in range(6))]
for order, told in zip(orders, play(keeps + ['take ' + ' '.join(map(str, order)) for order in orders])[len(keeps):]):
    compare('taken', told, ', '.join(['ok', *(f'{oid} {wanted[oid]}' for oid in order)]))
for oid, told in zip(unknown, play(keeps + [f'serve {oid}' for oid in unknown])[len(keeps):]):
    compare('asked', told.split(', ', 1)[1].rsplit('/', 1)[0], 'ok, ' + wanted[oid].rsplit('/', 1)[0])
print(f'{len(asked)} of {len(oids)} types, {len(unknown)} of them not built in, {len(orders)} orders: {bad} not as the catalog says')
sys.exit(1 if bad or len(known) < 49 or len(unknown) < 300 else 0)
PY
