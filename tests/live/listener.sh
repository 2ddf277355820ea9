#!/usr/bin/env bash
# A listener is sent 100,000 notifications by a PostgreSQL server of its own, while its backend is ended 20 times. It fails where one comes twice or out of
# order, where a loss isn't told or told twice, where one of the 84,000 is missing that are sent while it listens, before its backend is ended; and where of the
# others, which are sent as it is ended, one is missing but where the loss is told.
#
#     tests/live/listener.sh PROGRAM [PORT]
#
# PROGRAM is the built program `pool_cases`. Where this is run by root the server runs as the user `postgres`.
set -u
port=54340
. "$(dirname "$0")/session.sh"
python3 - "$program" "postgres://trusted@127.0.0.1:$port/postgres" "$folder" "$port" <<'PY'
import random
import subprocess
import sys
import threading
import time

LOSSES, STANDING, FALLING, AT_ONCE = 20, 4000, 800, 40
PATIENCE = 60
program, url, folder, port = sys.argv[1:]
heard = []
told = threading.Condition()


def psql(*texts):
    words = ['psql', '-h', folder, '-p', port, '-U', 'postgres', '-Atq', '-v', 'ON_ERROR_STOP=1']
    for text in texts:
        words += ['-c', text]
    return subprocess.run(words, check=True, capture_output=True, text=True).stdout.strip()


def notify(first, last):
    return f"SELECT count(pg_notify('numbers', n::text)) FROM generate_series({first}, {last}) AS n"


def until(holds, what):
    with told:
        if not told.wait_for(lambda: holds() or 'over' in heard[-1:], PATIENCE) or not holds():
            sys.exit(f'not so: {what}, behind {len(heard)} lines, the last of which are {heard[-3:]}')


def until_it_listens():
    deadline = time.monotonic() + PATIENCE
    while psql("SELECT count(*) FROM pg_stat_activity WHERE usename = 'trusted' AND state = 'idle' AND query LIKE 'LISTEN%'") != '1':
        if time.monotonic() > deadline:
            sys.exit('not so: it listens again')
        time.sleep(0.01)


def read():
    for line in listener.stdout:
        with told:
            heard.append(line.strip())
            told.notify()
    with told:
        heard.append('over')
        told.notify()


def stand(first):
    last = first + STANDING - 1
    until_it_listens()
    psql(notify(first, last))
    until(lambda: str(last) in heard[-FALLING:], f'{last} is heard')
    return last + 1


# each few of them are a transaction, and its backend is ended among them
def fall(first):
    last = first + FALLING - 1
    texts = [notify(n, n + AT_ONCE - 1) for n in range(first, last, AT_ONCE)]
    sender = threading.Thread(target=psql, args=texts)
    losses = heard.count('none')
    sender.start()
    time.sleep(random.random() / 50)
    ended = psql("SELECT count(pg_terminate_backend(pid)) FROM pg_stat_activity WHERE usename = 'trusted'")
    sender.join()
    if ended != '1':
        sys.exit(f'not so: it has one connection, and not {ended}')
    until(lambda: heard.count('none') > losses, f'loss {losses + 1} is told')
    return last + 1


listener = subprocess.Popen([program, url], stdin=subprocess.PIPE, stdout=subprocess.PIPE, text=True)
listener.stdin.write('numbers listen:numbers | \n')
listener.stdin.close()
threading.Thread(target=read, daemon=True).start()
begun = time.monotonic()
next_number, standing = 1, []
for _ in range(LOSSES):
    standing.append(next_number)
    next_number = fall(stand(next_number))
standing.append(next_number)
next_number = stand(next_number)
psql("SELECT pg_notify('numbers', 'end')")
until(lambda: 'over' in heard, 'it ends')

runs = [[]]
for line in heard[1:-3]:
    if line == 'none':
        runs.append([])
    elif line.isdigit():
        runs[-1].append(int(line))
    else:
        sys.exit(f'not so: it says {line}')
numbers = [number for run in runs for number in run]
missing = next_number - 1 - len(numbers)
print(f'sent {next_number - 1}, heard {len(numbers)}, losses {len(runs) - 1}, missing where a connection was lost {missing}, {time.monotonic() - begun:.0f} seconds')
if heard[0] != 'ok' or heard[-3] != 'end' or not heard[-2].startswith('numbers:') or len(runs) != LOSSES + 1:
    sys.exit('not so: it listens, each loss is told once, and the end is heard')
if numbers != sorted(set(numbers)):
    sys.exit('not so: none comes twice or out of order')
for run, first in zip(runs, standing):
    if first not in run or first + STANDING - 1 not in run or run != list(range(run[0], run[-1] + 1)):
        sys.exit(f'not so: those from {first} on, which were sent while a connection stood, are all there')
print('ok')
PY
