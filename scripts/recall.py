"""recall.py CRATE IMAGES: compares the image and the lists in CRATE's definitions with the files in IMAGES.

The definitions are read as they are written: a list of literals joined by ∷, `replicate COUNT BYTE`, and `event NUMBER WORD`. What is
written in any other way is not read, and fails.
"""
import re, sys

crate, images = sys.argv[1:3]
bad = []


def body(file, name):
    """what is written behind `NAME =` in a file of definitions, up to the next blank line"""
    text = open(f'{crate}/specs/{file}', encoding='utf-8').read()
    found = re.findall(r'^%s =(.*?)(?:\n\n|\Z)' % name, text, re.M | re.S)
    if len(found) != 1:
        sys.exit(f'recall: {file} has {len(found)} definitions of {name}')
    return ' '.join(found[0].split())


def items(file, name):
    """the items of a list written out: a ∷ b ∷ .. ∷ []"""
    parts = body(file, name).split(' ∷ ')
    if parts[-1] != '[]':
        sys.exit(f'recall: {file}: {name} does not end with []')
    return parts[:-1]


def literal(text):
    if not re.fullmatch(r'0x[0-9A-Fa-f]+|[0-9]+', text):
        sys.exit(f'recall: {text!r} is no number')
    return int(text, 0)


def compare(what, given, expected, show):
    if len(given) != len(expected):
        bad.append(f'{what}: {len(given)} in the definitions, {len(expected)} in the file')
    for place, (a, b) in enumerate(zip(given, expected)):
        if a != b:
            bad.append(f'{what}: at place {place} the definitions have {show(a)}, the file has {show(b)}')
            break


# the image
code = [literal(x) for x in items('Image.antt', 'code')]
vectors = [literal(x) for x in items('Image.antt', 'vectors')]
fill = re.fullmatch(r'code \+\+ \(replicate (\S+) (\S+) \+\+ vectors\)', body('Image.antt', 'rom'))
if not fill:
    sys.exit('recall: Image.antt: rom is not code, one byte repeated, and vectors')
rom = code + [literal(fill[2])] * literal(fill[1]) + vectors
compare('recall.rom', rom, list(open(f'{images}/recall.rom', 'rb').read()), lambda x: '%02X' % x)

# the lists
counts = []
for name, file in (('foreign_events', 'recall-foreign'), ('own_events', 'recall-own')):
    given = []
    for item in items('Lists.antt', name):
        part = re.fullmatch(r'event (\S+) (\S+)', item)
        if not part:
            sys.exit(f'recall: Lists.antt: {name}: {item!r} is no event')
        given.append((literal(part[1]), literal(part[2])))
    expected = []
    for line in open(f'{images}/{file}.events', encoding='ascii'):
        words = line.split('#')[0].split()
        if words:
            expected.append((int(words[0]), int(words[1], 16)))
    compare(f'{file}.events', given, expected, lambda x: '%d %08X' % x)
    counts.append(len(given))

# how many instructions
stored = {}
for line in open(f'{images}/runs.txt', encoding='ascii'):
    words = line.split('#')[0].split()
    if words:
        stored[words[1]] = int(words[2])
proof = open(f'{crate}/proofs/Files.antt', encoding='utf-8').read()
for name, file in (('foreign_events', 'recall-foreign'), ('own_events', 'recall-own')):
    run = set(re.findall(r'\bruns ([0-9]+) 0 rom %s ' % name, proof))
    if run != {str(stored[file])}:
        bad.append(f'{file}: the theorems run {", ".join(sorted(run)) or "no"} instructions, images/runs.txt says {stored[file]}')
before = set(re.findall(r'\bruns \(([0-9]+) \+ n\) 0 rom ', open(f'{crate}/proofs/Recall.antt', encoding='utf-8').read()))
if before != {str(stored['recall-foreign'])}:
    bad.append(f'Recall.antt runs {", ".join(sorted(before)) or "no"} instructions and n more, images/runs.txt says {stored["recall-foreign"]}')

for line in bad:
    print(f'recall: {line}')
if bad:
    sys.exit(1)
print(f'recall: {len(rom)} bytes of the image, {counts[0]} and {counts[1]} listed events and the instructions of both runs are those of {images}/')
