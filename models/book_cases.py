"""Writes the table of texts of crates/book_cases, or compares random texts with the program."""
import os
import random
import subprocess
import sys

HERE = os.path.dirname(os.path.abspath(__file__))
sys.path.insert(0, HERE)
from book import read

D = 'must never before never'
TOKENS = ['must', 'mustnot', 'before', 'each', 'once', 'until', 'then', 'else', 'and', 'never', 'if', 'time', 'kind', 'A', 'B', '7', '<=', '>=', '=', '+', '*', ',',
          ';', '(', ')', '[', ']', '']
PREFIXES = ['', 'must', 'must never', 'must never before', 'must never before never', 'must never before never ;', 'must [', 'must [ kind', 'must [ kind A',
            'must [ kind A ,', 'must [ kind A if', 'must [ kind A if A', 'must [ kind A if 2', 'must [ kind A if 2 *', 'must [ kind A if 2 * A',
            'must [ kind A if A +', 'must [ kind A if A + A +', 'must [ kind A if A + A + 1', 'must [ kind A if A <=', 'must [ kind A if A <= 2',
            'must [ kind A if A <= A', 'must [ kind A if A <= A ,', 'must [ if', 'must [ ]', 'each never', 'each never until', 'once never until never',
            'each never until never then', '(', '( must never before never', '( must never before never else',
            '( must never before never and must never before never', '( must never before never else must never before never )',
            'each never until never then must never before never']


def deep(n):
    return 'once never until never then ' * (n - 1) + D


def nest(n):
    s = D
    for _ in range(n - 1):
        s = '(' + s + ' else ' + D + ')'
    return s


def nest_right(n):
    s = D
    for _ in range(n - 1):
        s = '(' + D + ' and ' + s + ')'
    return s


BIG = '(' + nest(4) + ' and ' + nest(4) + ')'  # 15 nodes


def full(total):
    return (BIG + ';') * (total // 15) + (D + ';') * (total % 15)


def fixed():
    out = []

    def add(*texts):
        out.extend(texts)

    # accepted, the empty book too
    add('', ' ', '\n \n', D + ';', D + ' ;\n', 'must[]before[];', 'mustnot [kind 1] before never;', 'must [] before [];')
    add('each [kind 1] until [kind 9] then must [kind 3] before [kind 4];', 'once [kind 1] until never then must [kind 1] before never;',
        '(must [kind 3] before [kind 4] else must [kind 5] before never);', '(must never before never and mustnot never before never);',
        'once [kind 10, run A, time B] until never then (must [kind 11, run A] before [time C if C >= B + 240] else must [kind 12, run A] before [time C if C >= B + 360]);',
        'must[time A,kind B,machine C,crew D,run E,reading F if 1*A+2*B+3<=C,A=B,1>=2,F<=F]before[reading 9999999];',
        'must [kind10] before [kind 0];', 'must [kind 5000] before never;', 'must [if 1=1] before never;', 'must [if 1A=1] before never;')
    # 1
    add(D + ';' + ' ' * (8192 - len(D) - 1), D + ';' + ' ' * (8193 - len(D) - 1), '$' * 8192, '$' * 8193, ' ' * 8192, ' ' * 8193, ' ' * 8191 + ';', '01' + ' ' * 8191)
    # 2, at each kind of place
    for bad in ['mustt', 'AB', 'I', 'a', '$', '\t', '\r', '\x00', '\x7f', '\x80', '\xff', '<', '>', '!', 'Must', 'kindA', 'x']:
        add(bad, D + bad, D + ' ' + bad + ';', 'must ' + bad + ' before never;', 'must [' + bad + '] before never;', 'must [kind ' + bad + '] before never;',
            'must [kind 1 ' + bad + '] before never;', 'must [kind A if ' + bad + '] before never;', 'must [kind A if A ' + bad + ' A] before never;',
            'must [kind A if A <= ' + bad + '] before never;', '(' + bad, '(' + D + ' ' + bad + ' ' + D + ');', D + ';' + bad, 'each never until never then ' + bad)
    # 3
    for n in ['00', '01', '007', '10000000', '99999999999999999999', '0000000']:
        add(n, 'must ' + n, 'must [kind ' + n + '] before never;', 'must [' + n, 'must [kind A if ' + n + '*A=1] before never;', 'must [kind A if A=' + n + '] before never;',
            D + n + ';', 'must [kind A if A' + n, 'must [kind A if Z, ' + n)
    add('must [kind 0] before never;', 'must [kind 9999999] before never;')
    # 4: every token after each beginning
    for p in PREFIXES:
        for t in TOKENS:
            add(p + ' ' + t)
    # 5: each limit at it and past it
    rules = (D + ';') * 16
    add(rules, rules + D + ';', rules + D + ';' + D, rules + '$', rules + 'before', rules + '01', rules + 'must')
    for n in (7, 8, 9, 10):
        add(deep(n) + ';', nest(n) + ';', nest_right(n) + ';', '(' * n, '(' * n + '01', 'each never until never then ' * n, 'each never until never then ' * n + 'before')
    for n in (63, 64, 65):
        add(full(n))
    add(full(60) + '(' + D + ' and ' + nest(2) + ');', full(60) + '(' + nest(2) + ' and ' + D + ');', full(64) + '$', full(64) + 'before', full(64) + '(')
    for n in (3, 4, 5, 6):
        add('must [kind A if ' + ','.join(['A=A'] * n) + '] before never;')
    four = 'must [kind A if A=A,A=A,A=A,A=A'
    add(four + ',B=A] before never;', four + ',01=A] before never;', four + ',] before never;', four + ',<= ] before never;', four + ',7', 'must never before [if 1=1,1=1,1=1,1=1,2*A=1];')
    add('must [kind A if 1+2+3=1+2+3] before never;', 'must [kind A if 1+2+3+4=1] before never;', 'must [kind A if 1=1+2+3+4] before never;',
        'must [kind A if 2*A+3*A+4*A=A] before never;', 'must [kind A if 2*A+3*A+4*A+5*A=A] before never;')
    # 6
    add('must [kind 1, kind 2] before never;', 'must [kind A, run A] before never;', 'must [kind A, kind A] before never;', 'must [kind A, run 1, time A] before never;',
        'must [kind A] before [kind A];', 'each [kind A] until [kind A] then must [kind A] before [run A];',
        'must never before [time 1, kind 2, machine 3, crew 4, run 5, reading 6, time 7];', 'must [time A, kind B, machine C, crew D, run E, reading F] before never;',
        'must [kind G, run H if G=H] before never;', 'must [kind 1, kind 01', 'must [kind 1, kind')
    # 7, and scopes
    add('must [if A=1] before never;', 'must [kind A if B=1] before never;', 'must [kind A if A=B] before never;', 'must [kind A if 2*B=1] before never;',
        'must [kind A if A=2*B] before never;', 'must [kind A] before [if A=1];', 'mustnot [kind A] before [if A=1];',
        'each [kind A] until never then must [if A=1] before [if A=2];', 'each [kind A] until [if A=1] then must never before never;',
        'once [kind A] until never then (must [if A=1] before never else must [if A=1] before never);',
        '(once [kind A] until never then must [if A=1] before never and must [if A=1] before never);',
        'once [kind A] until never then must [if A=1] before never; must [if A=1] before never;',
        'once [kind A] until never then once [kind B] until [if A=1] then must [if A=B] before never;',
        'once [kind A] until never then once [kind B] until [if B=1] then must never before never;', 'once never until [kind A] then must [if A=1] before never;',
        'once [kind A] until never then each [kind A] until never then must [if A=1] before never;', 'once [kind A] until [run B] then must [if B=1] before never;')
    # several faults in one text
    add('must [kind 1, kind 2 if A=1] before 01;', 'must [if A=1, 01=2] $', 'must 01 [kind', '$ 01 before', 'must [kind A, run A] befor never;', 'must [if A=01] before never;',
        'must [if 01=A] before never;', 'must never before never must', 'must never before never;; $', rules + 'must [if A=1] before never;')
    # no gaps needed
    add('eachneveruntilneverthen', 'each[]until[]then(must[]before[]and must[]before[]);', 'must[kind1,run 2]before[];', 'must[kindA]before[];',
        'must[kind A if A<=1,A>=1,A=1]before[];', 'must[kind A if A< =1]before[];', 'must[kind A if A==1]before[];', 'must[kind A if A<1]before[];', 'must[kind A if A=<1]before[];')
    return [t.encode('latin-1') for t in out]


def randoms(count, number):
    rng = random.Random(number)

    def pattern(bound):
        if rng.random() < .2:
            return 'never', set()
        letters, binders = set(), []
        for f in rng.sample('time kind machine crew run reading'.split(), rng.randint(0, 4)):
            if rng.random() < .6:
                free = [l for l in 'ABCDEFGH' if l not in letters]
                l = rng.choice(free if rng.random() < .97 else 'ABCD')
                letters.add(l)
                binders.append(f + ' ' + l)
            else:
                binders.append(f + ' ' + str(rng.randint(0, 20)))
        s = ', '.join(binders)
        pool = sorted(bound | letters)

        def part():
            r = rng.random()
            if not pool or r < .4:
                return str(rng.randint(0, 99))
            l = rng.choice(pool) if rng.random() < .99 else rng.choice('ABCDEFGH')
            return l if r < .7 else str(rng.randint(0, 9)) + '*' + l

        def total():
            return ' + '.join(part() for _ in range(rng.choice([1, 1, 2, 3]) if rng.random() < .99 else 4))

        if rng.random() < .5:
            k = rng.choice([1, 2, 3, 4]) if rng.random() < .98 else 5
            s += ' if ' + ', '.join(total() + rng.choice(['<=', '>=', ' = ']) + total() for _ in range(k))
        return '[' + s + ']', letters

    def rule(d, bound):
        r = rng.random()
        if d <= 1 or r < .4:
            return rng.choice(['must ', 'mustnot ']) + pattern(bound)[0] + ' before ' + pattern(bound)[0]
        if r < .7:
            a, new = pattern(bound)
            return rng.choice(['each ', 'once ']) + a + ' until ' + pattern(bound)[0] + ' then ' + rule(d - 1, bound | new)
        return '(' + rule(d - 1, bound) + rng.choice([' else ', ' and ']) + rule(d - 1, bound) + ')'

    out = []
    for i in range(count):
        b = ''.join(rule(rng.randint(1, 9), set()) + ';\n' for _ in range(rng.randint(1, 5)))
        if i % 2:
            k, m = rng.randrange(len(b)), rng.random()
            b = b[:k] + b[k + 1:] if m < .4 else b[:k] + rng.choice('AB01;,]=<$ ') + b[k:] if m < .8 else b[:k]
        out.append(b.encode())
    return out


def answer(text):
    r = read(text)
    return 'ok %d %d' % r[1:] if r[0] == 'ok' else 'refused %d at %d' % r


if len(sys.argv) > 2:
    texts = randoms(int(sys.argv[1]), 99)
    got = subprocess.run([sys.argv[2]], input=b''.join(t + b'\x1e' for t in texts), capture_output=True).stdout.decode().split('\n')[:-1]
    want = [answer(t) for t in texts]
    print(len(texts), 'texts,', sum(w.startswith('ok') for w in want), 'accepted,', sum(g != w for g, w in zip(got, want)) + abs(len(got) - len(want)), 'differ')
else:
    texts = fixed() + randoms(300, 20)
    assert all(30 not in t for t in texts)
    folder = os.path.join(HERE, '..', 'crates', 'book_cases')
    with open(os.path.join(folder, 'stdin'), 'wb') as f:
        f.write(b''.join(t + b'\x1e' for t in texts))
    with open(os.path.join(folder, 'stdout'), 'w') as f:
        f.write('\n'.join(answer(t) for t in texts) + '\n')
    print(len(texts), 'texts')
