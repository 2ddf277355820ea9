"""Tells how often each instruction of a function runs, for a step or a row more, beside its listing.

  listing.py PROGRAM UNIT FUNCTION ..

The units are those of `instructions.py`. A function is named by a part of its name, as `shows_row`; callgrind and objdump tell the rest.
"""
import collections
import os
import re
import subprocess
import sys
import tempfile

sys.dont_write_bytecode = True
import instructions


def counted(program, text):
    """How often each instruction ran, by function and address."""
    with tempfile.TemporaryDirectory() as folder:
        out = f'{folder}/out'
        words = ['valgrind', '--tool=callgrind', '--dump-instr=yes', '--compress-pos=no', '--compress-strings=no']
        subprocess.run([*words, f'--callgrind-out-file={out}', program, 'script'], input=text.encode(), stdout=subprocess.DEVNULL, stderr=subprocess.DEVNULL, check=True)
        counts, function, is_call = collections.Counter(), None, False
        with open(out, errors='replace') as lines:
            for line in lines:
                found = re.match(r'0x([0-9a-f]+) \S+ (\d+)', line)
                if line.startswith('fn='):
                    function = line[3:].strip()
                elif found and not is_call:
                    counts[function, int(found.group(1), 16)] += int(found.group(2))
                # The line behind that of a call has the cost of what was called.
                is_call = line.startswith('calls=')
        return counts


def listed(program):
    words = ['objdump', '-d', '--no-show-raw-insn', program]
    lines = subprocess.run(words, capture_output=True, text=True, check=True).stdout.splitlines()
    found = (re.match(r'\s*([0-9a-f]+):\s+(.*)', line) for line in lines)
    return {int(one.group(1), 16): one.group(2) for one in found if one}


def tell(function, per_unit, listing):
    print(f'{function}: {sum(per_unit.values()):.1f}')
    # The program stands elsewhere in memory than in its file, by whole pages.
    first = min(per_unit)
    moved = next((by for by in range(0, first, 4096) if all(at - by in listing for at in per_unit)), 0)
    for at in sorted(per_unit):
        print(f'{per_unit[at]:7.2f}  {at - moved:x}: {listing.get(at - moved, "")}')


def main():
    program, unit, *names = os.path.abspath(sys.argv[1]), *sys.argv[2:]
    low, high = instructions.SIZES.get(unit, instructions.ROWS)
    counts = counted(program, instructions.text_of(unit, high))
    counts.subtract(counted(program, instructions.text_of(unit, low)))
    functions = collections.defaultdict(dict)
    for (function, at), count in counts.items():
        if function and count > 0 and any(name in function for name in names):
            functions[function][at] = count / (high - low)
    listing = listed(program)
    for function, per_unit in functions.items():
        tell(function, per_unit, listing)


if __name__ == '__main__':
    main()
