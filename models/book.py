"""An independent reading of book texts, by the table of what may follow.

A text is answered with 'ok', its count of rules and its count of nodes, or with
the number and the place of its first fault. It shares nothing with the program:
tokens come from one regular expression, and the grammar is a stack machine."""
import re

WORDS = 'must mustnot before each once until then else and never if'.split()
FIELDS = 'time kind machine crew run reading'.split()
TOKEN = re.compile(rb'[A-Za-z]+|[0-9]+|<=|>=|[=+*,;()\[\]]|[^ \n]')


def lex(text):
    out = []
    for m in TOKEN.finditer(text):
        s = m.group().decode('latin-1')
        at = m.start()
        if re.fullmatch('[A-Za-z]+', s):
            if s in WORDS or s in FIELDS or re.fullmatch('[A-H]', s):
                out.append((s, at, None))
            else:
                out.append((s, at, 2))
        elif re.fullmatch('[0-9]+', s):
            bad = (len(s) > 1 and s[0] == '0') or int(s) > 9999999
            out.append(('#', at, 3 if bad else None))
        elif s in ('<=', '>=', '=') or s in '+*,;()[]':
            out.append((s, at, None))
        else:
            out.append((s, at, 2))
    out.append(('END', len(text), None))
    return out


class Fault(Exception):
    pass


def read(text):
    if len(text) > 8192:
        return (1, 0)
    tokens = lex(text)
    pos = [0]
    nodes = [0]

    def fail(n, at):
        raise Fault((n, at))

    def take(allowed):
        s, at, bad = tokens[pos[0]]
        if bad:
            fail(bad, at)
        if not allowed(s):
            fail(4, at)
        pos[0] += 1
        return s, at

    def one(*words):
        return take(lambda s: s in words)

    def is_letter(s):
        return len(s) == 1 and s in 'ABCDEFGH'

    def peek():
        s, at, bad = tokens[pos[0]]
        return None if bad else s

    def part(k, bound):
        s, at = take(lambda s: s == '#' or is_letter(s))
        if k > 4:
            fail(5, at)
        if s == '#':
            if peek() == '*':
                take(lambda s: True)
                s, at = take(is_letter)
                if s not in bound:
                    fail(7, at)
        elif s not in bound:
            fail(7, at)

    def total(k, bound):
        part(k, bound)
        for _ in range(2):
            if peek() != '+':
                break
            take(lambda s: True)
            part(k, bound)

    def pattern(bound):
        s, _ = one('never', '[')
        if s == 'never':
            return set()
        fields, letters = set(), set()

        def binder():
            f, at = take(lambda s: s in FIELDS)
            if f in fields:
                fail(6, at)
            fields.add(f)
            v, at = take(lambda s: s == '#' or is_letter(s))
            if v != '#':
                if v in letters:
                    fail(6, at)
                letters.add(v)

        if peek() in FIELDS:
            binder()
            while peek() == ',':
                take(lambda s: True)
                binder()
            allowed = ('if', ']', ',')
        else:
            allowed = ('if', ']') + tuple(FIELDS)
        s, _ = take(lambda s: s in allowed)
        if s == 'if':
            k = 0
            while True:
                k += 1
                total(k, bound | letters)
                one('<=', '>=', '=')
                total(k, bound | letters)
                s, _ = one(',', ']')
                if s == ']':
                    break
        return letters

    def rule(number, around, bound):
        s, at = one('must', 'mustnot', 'each', 'once', '(')
        nodes[0] += 1
        if number > 16 or nodes[0] > 64 or around + 1 > 8:
            fail(5, at)
        if s in ('must', 'mustnot'):
            pattern(bound)
            one('before')
            pattern(bound)
        elif s in ('each', 'once'):
            new = pattern(bound)
            one('until')
            pattern(bound)
            one('then')
            rule(number, around + 1, bound | new)
        else:
            rule(number, around + 1, bound)
            one('else', 'and')
            rule(number, around + 1, bound)
            one(')')

    try:
        n = 0
        while peek() != 'END':
            n += 1
            rule(n, 0, set())
            one(';')
    except Fault as f:
        return f.args[0]
    return ('ok', n, nodes[0])
