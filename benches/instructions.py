"""Counts the instructions of the built program, a unit at a time.

  instructions.py PROGRAM [UNIT ..]

Each unit (`steps`, `queries`, `copyout`, `execute`, `fetch`, `fetch_all`, each of the last three with `4` behind for rows of four int columns, and
with `_many` behind that for fifty rows a piece) is played at two sizes under valgrind's callgrind, and what is printed is the slope: instructions for
each step or row more. `script` is that of reading the script, for each byte of it, and `play` what is neither script nor report. Below each unit stand
the crates, each with what it calls in the standard library and the C library, and then the functions that take most by themselves.
"""
import collections
import os
import re
import subprocess
import sys
import tempfile

sys.dont_write_bytecode = True
import scripts

SIZES = {'steps': (1000, 2000), 'queries': (1000, 2000), 'copyout': (4000, 8000)}
ROWS = (4000, 8000)
CALLS = ['execute', 'fetch', 'fetch_all']
UNITS = [*SIZES, *CALLS, *(f'{call}4' for call in CALLS), *(f'{call}4_many' for call in CALLS)]


def text_of(unit, size):
    if unit in SIZES:
        return scripts.script(unit, size)
    one = unit.removesuffix('_many')
    call = one.removesuffix('4')
    return scripts.script('rows', size, call, '1' if one == call else '4', '1' if unit == one else '50')


class Profile:
    """The cost of each function by itself, and of its calls, of a file of callgrind."""

    def __init__(self, path):
        self.own = collections.Counter()
        self.calls = collections.Counter()
        self.names = {}
        caller = callee = None
        with open(path, errors='replace') as lines:
            for line in lines:
                found = re.match(r'(c?fn)=\((\d+)\)(?: (.*))?', line)
                if found:
                    kind, key, name = found.groups()
                    if name:
                        self.names[key] = name
                    if kind == 'fn':
                        caller = self.names[key]
                    else:
                        callee = self.names[key]
                elif line.startswith('calls='):
                    self.calls[caller, callee] += int(next(lines).split()[1])
                elif caller and re.match(r'[+\-*\d]', line):
                    self.own[caller] += int(line.split()[1])

    def minus(self, less):
        self.own.subtract(less.own)
        self.calls.subtract(less.calls)
        return self


def crate_of(name):
    """The crate of the repository that a function is of, by its name, or None."""
    found = re.match(r'<*(pg_\w+|zapoteboom)::', name)
    return found and found.group(1)


def measured(program, text):
    with tempfile.TemporaryDirectory() as folder:
        given, out = f'{folder}/script', f'{folder}/out'
        with open(given, 'w') as file:
            file.write(text)
        words = ['valgrind', '--tool=callgrind', f'--callgrind-out-file={out}', program, 'script']
        with open(given) as file:
            subprocess.run(words, stdin=file, stdout=subprocess.DEVNULL, stderr=subprocess.DEVNULL, check=True)
        return Profile(out)


def slope(program, unit):
    few, many = (text_of(unit, size) for size in SIZES.get(unit, ROWS))
    low, high = SIZES.get(unit, ROWS)
    return measured(program, many).minus(measured(program, few)), high - low, len(many) - len(few)


def shares(profile):
    """What each crate takes, with what it calls outside the repository."""
    sums = collections.Counter()
    for name, cost in profile.own.items():
        if crate_of(name):
            sums[crate_of(name)] += cost
    for (caller, callee), cost in profile.calls.items():
        if crate_of(caller) and not crate_of(callee):
            sums[crate_of(caller)] += cost
    return sums


def entered(profile, crate):
    """What a crate takes with all that it calls, by the calls from outside."""
    return sum(cost for (caller, callee), cost in profile.calls.items() if crate_of(callee) == crate and crate_of(caller) != crate)


def tell(program, unit):
    profile, units, size = slope(program, unit)
    whole, script, report = sum(profile.own.values()), entered(profile, 'pg_script'), entered(profile, 'pg_report')
    print(f'{unit}: {whole / units:.0f} for each')
    print(f'  script: {script / size:.1f} for each of {size / units:.0f} bytes')
    print(f'  report: {report / units:.0f} for each')
    print(f'  play: {(whole - script - report) / units:.0f} for each')
    for crate, cost in shares(profile).most_common():
        if cost > units / 2:
            print(f'  {crate}: {cost / units:.0f}')
    for name, cost in profile.own.most_common(12):
        print(f'    {cost / units:8.1f}  {name}')


def main():
    program = os.path.abspath(sys.argv[1])
    for unit in sys.argv[2:] or UNITS:
        tell(program, unit)


if __name__ == '__main__':
    main()
