"""Reads every short text by the grammars of array texts and record texts, and prints a digest of all answers.

The program `row_cases` reads the same texts with `read_array` and `read_composite`: the row `digests` of its file `stdout` has what this
program prints.

An array is braces round elements joined by commas, or `{}`. An element is NULL, or a text in quotes in which a backslash keeps the next
character, or characters other than braces, comma, quote, backslash and white space (PostgreSQL manual, "Array Input and Output Syntax").

A record is parentheses round fields joined by commas. A field is nothing, which is null, or a text in quotes in which quotes and backslashes
are doubled, or characters other than comma, parentheses, quote and backslash ("Composite Type Input and Output Syntax").

The texts are those of no character to five characters over the alphabet, shorter ones first, those of one length as numbers whose last
digit is the last character. An answer is told as `E` where the text is refused; else as `K`, each item, and a full stop. An item is `N`
for a null, or `T`, one byte with the length of its text, and the text. The digest is FNV-1a with 64 bits.
"""
import itertools
import re

ALPHABET = '{},"\\NUL()a '
LONGEST = 5

ELEMENT = r'NULL|"(?:[^"\\]|\\.)*"|[^{},"\\ \t\n\v\f\r]+'
ARRAY = re.compile(r'\{(?:%s)(?:,(?:%s))*\}' % (ELEMENT, ELEMENT), re.DOTALL)

FIELD = r'"(?:[^"\\]|""|\\\\)*"|[^,()"\\]*'
RECORD = re.compile(r'\((?:%s)(?:,(?:%s))*\)' % (FIELD, FIELD), re.DOTALL)


def items(pattern, text):
    """The spellings of the items of a text that is in the grammar, which a comma behind each one keeps apart."""
    return re.findall('(%s),' % pattern, text[1:-1] + ',', re.DOTALL)


def element(spelling):
    if spelling == 'NULL':
        return None
    if spelling.startswith('"'):
        return re.sub(r'\\(.)', r'\1', spelling[1:-1], flags=re.DOTALL)
    return spelling


def field(spelling):
    if spelling == '':
        return None
    if spelling.startswith('"'):
        return spelling[1:-1].replace('""', '"').replace('\\\\', '\\')
    return spelling


def array(text):
    if text == '{}':
        return []
    if not ARRAY.fullmatch(text):
        return None
    return [element(spelling) for spelling in items(ELEMENT, text)]


def record(text):
    if not RECORD.fullmatch(text):
        return None
    return [field(spelling) for spelling in items(FIELD, text)]


def told(answer):
    if answer is None:
        return b'E'
    parts = [b'N' if item is None else b'T' + bytes([len(item) % 256]) + item.encode() for item in answer]
    return b'K' + b''.join(parts) + b'.'


def digest_of(read):
    digest = 0xcbf29ce484222325
    taken = 0
    for length in range(LONGEST + 1):
        for characters in itertools.product(ALPHABET, repeat=length):
            answer = read(''.join(characters))
            taken += answer is not None
            for byte in told(answer):
                digest = (digest ^ byte) * 0x100000001b3 % 2 ** 64
    return digest, taken


for name, read in ('array', array), ('record', record):
    print(name, *digest_of(read))
