"""An independent model of the auditor.

Verdicts and open sheets come from their definitions on the whole log, by plain recursion; nothing is
kept from line to line. Whether a text is a book is answered by `book.read`."""
import re
import sys
from collections import namedtuple

import book

sys.setrecursionlimit(20000)

FIELDS = book.FIELDS
LETTERS = 'ABCDEFGH'
WIDTHS = (8, 4, 5, 5, 5, 7)
PENDING = ('pending', 0)

# A duty is a must or mustnot; a trigger is an each or once, with its duty; a bracket is an else or and.
Duty = namedtuple('Duty', 'word node first second')
Trigger = namedtuple('Trigger', 'word node first second duty')
Bracket = namedtuple('Bracket', 'word node left right')
# Binders are (field, number or letter); a condition is (sum, sign, sum); a sum lists (factor, letter or None).
Pattern = namedtuple('Pattern', 'binders conditions')
Fault = namedtuple('Fault', 'number station item field')


def rules_of(text):
    """The rules of a text that is a book. A pattern `never` is None."""
    tokens = re.findall(r'[A-Za-z]+|[0-9]+|<=|>=|[=+*,;()\[\]]', text.decode())
    tokens.reverse()
    node = [0]

    def part():
        t = tokens.pop()
        if t in LETTERS:
            return (1, t)
        if tokens[-1] != '*':
            return (int(t), None)
        tokens.pop()
        return (int(t), tokens.pop())

    def total():
        parts = [part()]
        while tokens[-1] == '+':
            tokens.pop()
            parts.append(part())
        return parts

    def pattern():
        if tokens.pop() == 'never':
            return None
        binders, conditions = [], []
        while tokens[-1] in FIELDS or tokens[-1] == ',':
            if tokens[-1] == ',':
                tokens.pop()
            field, value = FIELDS.index(tokens.pop()), tokens.pop()
            binders.append((field, value if value in LETTERS else int(value)))
        while tokens.pop() != ']':
            left, sign = total(), tokens.pop()
            conditions.append((left, sign, total()))
        return Pattern(binders, conditions)

    def rule():
        node[0] += 1
        n, word = node[0], tokens.pop()
        if word == '(':
            left, word = rule(), tokens.pop()
            right = rule()
            tokens.pop()
            return Bracket(word, n, left, right)
        first = pattern()
        tokens.pop()
        second = pattern()
        if word in ('must', 'mustnot'):
            return Duty(word, n, first, second)
        tokens.pop()
        return Trigger(word, n, first, second, rule())

    rules = []
    while tokens:
        node[0] = 0
        rules.append(rule())
        tokens.pop()
    return rules


def matched(pattern, bound, line):
    """The enlarged bindings, or None where the pattern does not match."""
    if pattern is None:
        return None
    new = dict(bound)
    for field, value in pattern.binders:
        if value in new:
            value = new[value]
        if isinstance(value, int):
            if line[field] != value:
                return None
        else:
            new[value] = line[field]

    def amount(parts):
        return sum(n if letter is None else n * new[letter] for n, letter in parts)

    for left, sign, right in pattern.conditions:
        a, b = amount(left), amount(right)
        if not (a <= b if sign == '<=' else a >= b if sign == '>=' else a == b):
            return None
    return new


def join(v, w):
    breaches = [x for x in (v, w) if x[0] == 'breached']
    if breaches:
        return min(breaches, key=lambda x: x[1])
    if PENDING in (v, w):
        return PENDING
    return ('satisfied', max(v[1], w[1]))


class Judged:
    """A log, with the verdicts of rules from a line on. Lines are numbered from 1."""

    def __init__(self, log):
        self.log = log
        self.known = {}

    def verdict(self, r, f, i):
        key = (id(r), tuple(sorted(f.items())), i)
        if key not in self.known:
            self.known[key] = self.defined(r, f, i)
        return self.known[key]

    def defined(self, r, f, i):
        if i > len(self.log):
            return PENDING
        if isinstance(r, Bracket):
            left = self.verdict(r.left, f, i)
            if r.word == 'and':
                return join(left, self.verdict(r.right, f, i))
            return self.verdict(r.right, f, left[1] + 1) if left[0] == 'breached' else left
        line = self.log[i - 1]
        if matched(r.second, f, line) is not None:
            return ('breached' if r.word == 'must' else 'satisfied', i)
        new = matched(r.first, f, line)
        if new is None:
            return self.verdict(r, f, i + 1)
        if isinstance(r, Duty):
            return ('satisfied' if r.word == 'must' else 'breached', i)
        duty = self.verdict(r.duty, new, i + 1)
        return duty if r.word == 'once' else join(duty, self.verdict(r, f, i + 1))

    def begun(self, r, f, i):
        """The duties that a trigger has begun, as (bindings, first line), and whether its end has come."""
        duties = []
        for j in range(i, len(self.log) + 1):
            line = self.log[j - 1]
            if matched(r.second, f, line) is not None:
                return duties, True
            new = matched(r.first, f, line)
            if new is not None:
                duties.append((new, j + 1))
                if r.word == 'once':
                    break
        return duties, False

    def entries(self, r, f, i, level):
        """The open entries of a rule, as (node, level, mark, bindings)."""
        if self.verdict(r, f, i) != PENDING:
            return []
        one = [(r.node, level, 0, f)]
        if isinstance(r, Duty):
            return one
        if isinstance(r, Trigger):
            duties, ended = self.begun(r, f, i)
            if r.word == 'once':
                return self.entries(r.duty, *duties[0], level) if duties else one
            out = [(r.node, level, int(ended), f)]
            for new, start in duties:
                out += self.entries(r.duty, new, start, level + 1)
            return out
        left = self.verdict(r.left, f, i)
        if r.word == 'else':
            if left[0] == 'breached':
                return self.entries(r.right, f, left[1] + 1, level)
            return one + self.entries(r.left, f, i, level + 1)
        if left != PENDING:
            return self.entries(r.right, f, i, level)
        if self.verdict(r.right, f, i) != PENDING:
            return self.entries(r.left, f, i, level)
        return one + self.entries(r.left, f, i, level + 1) + self.entries(r.right, f, i, level + 1)


def sheet(rules, log):
    """The open sheet, as (rule, node, level, mark, bindings)."""
    judged = Judged(log)
    return [(n, *e) for n, r in enumerate(rules, 1) for e in judged.entries(r, {}, 1, 0)]


def verdict_page(rules, log):
    judged = Judged(log)
    out = ''
    for n, r in enumerate(rules, 1):
        word, line = judged.verdict(r, {}, 1)
        number = ('pending', 'satisfied', 'breached').index(word)
        out += '%4d%2d%8s\n' % (n, number, '' if word == 'pending' else line)
    return out


def sheet_page(rules, log):
    out = ''
    for n, node, level, mark, f in sheet(rules, log):
        out += '%4d%4d%3d%2d' % (n, node, level, mark) + ''.join('%8s' % f.get(x, '') for x in LETTERS) + '\n'
    return out


def items_of(text, station):
    """The items of a text in order: a line as a tuple of six numbers, or a Fault."""
    return [item_of(text[at:at + 35], station, at // 35 + 1) for at in range(0, len(text), 35)]


def item_of(piece, station, number):
    if len(piece) < 35:
        return Fault(21, station, number, 0)
    if piece[34] != 10:
        return Fault(22, station, number, 0)
    values, at = [], 0
    for field, width in enumerate(WIDTHS, 1):
        column, at = piece[at:at + width].decode('latin-1'), at + width
        found = re.fullmatch(' +(0|[1-9][0-9]*)', column)
        if found:
            values.append(int(found[1]))
        elif field > 2 and column == ' ' * width:
            values.append(0)
        else:
            return Fault(23, station, number, field)
    return tuple(values)


class Account:
    """The plain account of one auditor: the book, the log, and what waits in its feeds."""

    def __init__(self, rules, feeds):
        self.rules = rules
        self.log = []
        self.feeds = feeds

    def waiting(self, feed):
        return self.feeds[feed] if feed < len(self.feeds) else []

    def why_not(self, item):
        """Why an item cannot be taken; None where it can."""
        if len(self.log) >= 1000000:
            return 33
        if isinstance(item, Fault):
            return item
        if self.log and item[0] < self.log[-1][0]:
            return 31
        if len(sheet(self.rules, self.log + [item])) > 256:
            return 32
        return None

    def take(self, feed, count):
        """How many lines were taken, and why no more: 'done', 'dry', a number, or a Fault."""
        if not 1 <= count <= 4096:
            return 0, 41
        items, taken = self.waiting(feed), 0
        while taken < count:
            if not items:
                return taken, 'dry'
            why = self.why_not(items[0])
            if why is not None:
                return taken, why
            self.log.append(items.pop(0))
            taken += 1
        return taken, 'done'

    def skip(self, feed):
        items = self.waiting(feed)
        if items:
            items.pop(0)
            return True
        return False

    def page(self, call):
        return (verdict_page if call == 'verdicts' else sheet_page)(self.rules, self.log)
