"""Lists, by text, the places in crates/*/src where an older form may stand.

    python3 tools/places.py [ROOT]

A line that is printed is a place to read, not a verdict: docs/DESIGN-PASS.md says what became of each.
"""
import collections
import glob
import re
import sys

ROOT = sys.argv[1] if len(sys.argv) > 1 else '.'
WORDS = set('fn let mut match if else for while in return pub crate self Self Ok Err Some None true false use impl'
            ' struct enum const as ref break continue requires ensures ghost where move'.split())


def sources():
    for path in sorted(glob.glob(ROOT + '/crates/*/src/**/*.rt', recursive=True)):
        yield path[len(ROOT) + 8:], open(path).read()


def functions(text):
    """Each function with a body, as (line, name, signature and clauses, body)."""
    lines = text.split('\n')
    for at, line in enumerate(lines):
        found = re.match(r'( *)(?:pub(?:\(crate\))? )?(?:const )?fn (\w+)', line)
        if found:
            place = body_of(lines, at, found.group(1))
            if place:
                start, end = place
                yield at + 1, found.group(2), '\n'.join(lines[at:start]), '\n'.join(lines[start:end])


def body_of(lines, at, indent):
    """Where the body of the function that begins at a line starts and ends; None where it has none."""
    start = None
    for i in range(at, len(lines)):
        line = lines[i]
        if start is not None and line == indent + '}':
            return start, i
        if start is None and line.endswith(';'):
            return None
        if start is None and (line == indent + '{' or line.endswith('{') and not re.search(r'requires|ensures', line)):
            start = i + 1
    return None


def shape(body):
    body = re.sub(r'//.*', '', body)
    tokens = re.findall(r"b?\"[^\"]*\"|b?'[^']*'|\w+|[^\s\w]", body)
    out = []
    for token in tokens:
        if token[0] in '"\'' or token[:2] in ('b"', "b'"):
            out.append('text')
        elif token[0].isdigit():
            out.append('0')
        elif re.match(r'\w', token) and token not in WORDS:
            out.append('x')
        else:
            out.append(token)
    return ' '.join(out)


def show(title, places):
    print('%s: %d' % (title, len(places)))
    for place in places:
        print('    ' + place)


def by_line(pattern, keep=lambda text: True):
    places = []
    for path, text in sources():
        for at, line in enumerate(text.split('\n')):
            if re.search(pattern, line) and keep(line):
                places.append('%s:%d: %s' % (path, at + 1, line.strip()))
    return places


def main():
    handed = by_line(r'(Ok|Some)\((\w+)\) => (Ok|Some)\(|Err\((\w+)\) => (return )?Err\(|None => (None\b|Err\()')
    show('1 a Result or an Option handed on by a match', handed)
    show('1 a Result or an Option taken apart by let .. else',
         by_line(r'let (Ok|Err|Some)\(.*else \{'))
    flags, numbers = [], []
    for path, text in sources():
        for at, name, head, body in functions(text):
            if '-> bool' in head and '&mut' in head.replace('&mut self', ''):
                flags.append('%s:%d: %s' % (path, at, name))
            if re.search(r'-> (u8|bool|usize|u32)', head) and body.strip() == '0':
                numbers.append('%s:%d: %s' % (path, at, name))
            if re.search(r'Result<bool', head):
                flags.append('%s:%d: %s' % (path, at, name))
    show('1 a flag with a value beside it, or for a kind', flags)
    show('1 a number that means nothing', numbers)
    show('1 enums, to be read for the shape of Option or Result', by_line(r'^(pub(\(crate\))? )?enum '))

    shapes = collections.defaultdict(list)
    for path, text in sources():
        for at, name, head, body in functions(text):
            if len(shape(body).split()) >= 14:
                shapes[shape(body)].append('%s:%d: %s' % (path, at, name))
    show('2 functions of one shape', [', '.join(v) for v in shapes.values() if len(v) > 1])
    show('2 types that hold an array of a fixed length, or a count for each side',
         by_line(r'^\s+(pub )?\w+: (\[.*; *\w+\]|u64|bool),$'))

    show('3 loops by a condition', by_line(r'^\s*while '))
    show('3 loops over a range', by_line(r'^\s*for \w+ in .*\.\.'))
    show('3 counters', by_line(r'(\+= 1;|= \w+\.saturating_add\(1\);)'))
    show('3 places computed from an index', by_line(r'\.enumerate\(\)|\* i\b|\[i\]'))
    loops = []
    for path, text in sources():
        for at, name, head, body in functions(text):
            if re.search(r'^\s*for \w+ in ', body, re.M) and re.search(r'return (true|false);|\.push\(', body):
                loops.append('%s:%d: %s' % (path, at, name))
    show('3 loops that test all, any, or collect', loops)

    convert = []
    for path, text in sources():
        for at, name, head, body in functions(text):
            first = body.strip().split('\n')[0]
            if re.match(r'match (\w+|\(\w+\.\w+, \w+\)) \{$', first) and not re.search(r'\(.*\)\?|;\n', body) \
                    and re.search(r'-> ', head) and len(re.findall(r'=>', body)) >= 2:
                convert.append('%s:%d: %s' % (path, at, name))
    show('4 a function that is one match', convert)
    show('4 text made by hand', by_line(r'fn \w*(words|name|text|rows?|caret)\(|format!\('))

    facts, pairs = collections.Counter(), collections.defaultdict(set)
    for path, text in sources():
        crate = path.split('/')[0]
        for at, name, head, body in functions(text):
            for clause in re.findall(r'requires (?:\w+ )?(\{.*\})', head):
                facts[crate + ' ' + re.sub(r'\b(rule|duty|act|end|start|first|second|left|right)\b', 'r', clause)] += 1
            params = re.findall(r'(\w+): ([^,()]+(?:\([^)]*\))?)', head.split('->')[0])
            params = sorted(set((n, t.strip()) for n, t in params if n not in ('requires', 'ensures')))
            for i, p in enumerate(params):
                for q in params[i + 1:]:
                    pairs[(crate, p[0] + ': ' + p[1], q[0] + ': ' + q[1])].add(name)
    show('5 a requires three times or more', ['%d x %s' % (n, f) for f, n in sorted(facts.items()) if n >= 3])
    show('5 parameters together four times or more',
         ['%s: %s and %s in %d' % (k[0], k[1], k[2], len(v)) for k, v in sorted(pairs.items()) if len(v) >= 4])

    show('6 counts, places and arrays in types', by_line(r'^\s+(pub )?(count|len|pos|next|at): |: \[.*; *\w+\],$|^\s+\w+: Vec<'))
    show('7 a match that chooses a function', by_line(r'=> \w+\(.*\),$'))


main()
