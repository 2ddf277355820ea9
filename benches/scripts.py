"""Writes a long script to standard output.

  scripts.py steps N                  N calls, each with a reply of its own
  scripts.py queries N                one call that prepares a text, and N that find its statement kept, with the reply of `steps`
  scripts.py rows N [CALL [COLUMNS [MANY]]]
                                      one call, `execute` if none is said, whose reply has N rows of so many int columns, one if
                                      no number is said, and so many rows a piece, one if no number is said
  scripts.py copyout N                a copy of N rows to the client, each row a message of its own, and 400 of them a piece
"""
import struct
import sys

COLUMN = struct.pack('>ihihih', 0, 0, 23, 4, -1, 0)


def spelled(data):
    plain = range(32, 127)
    return ''.join(chr(b) if b in plain and b not in b'"\\' else f'\\x{b:02x}' for b in data)


def message(tag, body):
    return tag + struct.pack('>i', 4 + len(body)) + body


def fields(names):
    return message(b'T', struct.pack('>h', len(names)) + b''.join(name + b'\0' + COLUMN for name in names))


def row(values):
    return message(b'D', struct.pack('>h', len(values)) + b''.join(struct.pack('>i', len(v)) + v for v in values))


PARSED, BOUND, CLOSED = (message(tag, b'') for tag in (b'1', b'2', b'3'))
READY = message(b'Z', b'I')
GREETING = message(b'R', struct.pack('>i', 0)) + READY
END = message(b'C', b'SELECT 1\0') + READY
NAMES = [b'?column?', b'id', b'owner', b'amount', b'parts']
VALUES = [b'1', b'204', b'31', b'70000', b'6']


def server(piece):
    return f'server "{spelled(piece)}"\n'


def steps(count):
    return (server(fields(NAMES[:1]) + row(VALUES[:1]) + END) + 'step 9 fetch_all raw "SELECT 1"\n') * count


def queries(count):
    step = 'step 9 fetch_all query "SELECT 1"\n'
    first = server(PARSED + message(b't', b'\0\0') + fields(NAMES[:1]) + READY) + step.replace('fetch_all query', 'prepare')
    return first + (server(BOUND + row(VALUES[:1]) + END[:-len(READY)] + CLOSED + READY) + step) * count


def rows(count, call='execute', columns='1', many='1'):
    width, at_once = int(columns), int(many)
    whole, left = divmod(count, at_once)
    pieces = server(row(VALUES[:width]) * at_once) * whole + (server(row(VALUES[:width]) * left) if left else '')
    return server(fields(NAMES[:width])) + pieces + server(END) + f'step 4000000000 {call} raw "SELECT 1"\n'


def copyout(count):
    messages = [message(b'd', b'%d\n' % n) for n in range(1, count + 1)]
    pieces = ''.join(server(b''.join(messages[first:first + 400])) for first in range(0, count, 400))
    return (server(message(b'H', b'\0\0\0')) + pieces + server(message(b'c', b'') + message(b'C', b'COPY %d\0' % count) + READY)
            + 'step 4000000000 copyout "COPY t TO STDOUT"\n')


def script(kind, count, *more):
    return 'user "u"\n' + server(GREETING) + {'steps': steps, 'queries': queries, 'rows': rows, 'copyout': copyout}[kind](count, *more)


if __name__ == '__main__':
    sys.stdout.write(script(sys.argv[1], int(sys.argv[2]), *sys.argv[3:]))
