"""Writes the table of crates/audit_cases by the model in audit.py, or compares more random cases with the program.

A case is a book text, a log text and a list of turns, a line for each turn: the number of the auditor, the
call, and its numbers. The log is both auditors' first feed, at station 1 for the first and 2 for the second."""
import os
import random
import subprocess
import sys

HERE = os.path.dirname(os.path.abspath(__file__))
sys.path.insert(0, HERE)
import audit
import book

EACH = 'each [kind 1] until %s then must [kind 3] before [kind 4];\n'
PAIR = 'each [kind 1] until never then (must [kind 3] before never and must [kind 5] before never);\n'
LIMITS = (9999999, 999, 9999, 9999, 9999, 999999)


def row(*values, blank=False):
    """A line's text; with `blank`, fields 3 to 6 that are 0 are left blank."""
    out = ''
    for field, (width, value) in enumerate(zip(audit.WIDTHS, values)):
        out += ' ' * width if blank and field > 1 and value == 0 else '%*d' % (width, value)
    return out + '\n'


def kinds(*ks):
    return ''.join(row(0, k, 0, 0, 0, 0) for k in ks)


class Script:
    """Turns for one auditor, made while the model answers them, so that refused items can be skipped."""

    def __init__(self, rng, number, rules, log):
        self.rng = rng
        self.number = number
        self.account = audit.Account(rules, [audit.items_of(log, number)])
        self.turns = []

    def turn(self, *words):
        self.turns.append((self.number, *words))

    def take(self, count):
        """Takes, and skips what was refused; whether more may wait."""
        self.turn('take', 0, count)
        _, stop = self.account.take(0, count)
        if stop in ('done', 'dry'):
            return stop == 'done'
        self.turn('skip', 0)
        return self.account.skip(0)

    def page(self, call, room):
        self.turn(call, max(0, len(self.account.page(call)) + room))

    def at_once(self):
        while self.take(4096):
            pass

    def by_pieces(self, pages):
        while self.take(self.rng.randint(1, 3)):
            if self.rng.random() < pages:
                self.page(self.rng.choice(['verdicts', 'sheet']), self.rng.choice([-1, 0, 0, 1]))

    def end(self):
        """Both pages with room to spare, and one where a byte is wanting."""
        self.page('verdicts', self.rng.choice([0, 1, 5]))
        self.page('sheet', self.rng.choice([0, 1, 5]))
        self.page('sheet' if 0 < len(self.account.page('sheet')) < 100 else 'verdicts', -1)


def slips(rng, script):
    """Calls that are refused or find nothing, put in anywhere."""
    for words in [('take', 0, 0), ('take', 0, 4097), ('take', 1, 4), ('take', 1, 0), ('skip', 1), ('take', 0, 2 ** 32 - 1)]:
        if rng.random() < .05:
            script.turns.insert(rng.randint(0, len(script.turns)), (script.number, *words))


def mixed(rng, first, second):
    """The turns of both, in any mixture that keeps the order of each."""
    sides = [first[:], second[:]]
    out = []
    while sides[0] or sides[1]:
        side = sides[rng.random() < len(sides[1]) / (len(sides[0]) + len(sides[1]))]
        out.append(side.pop(0))
    return out


def case(rng, text, log, pages=.3, big=False):
    """A case with turns for both auditors. Of a big sheet only the second auditor writes the page."""
    if book.read(text.encode())[0] != 'ok':
        return text, log, [(1, 'take', 0, 4096), (2, 'verdicts', 20)]
    rules = audit.rules_of(text.encode())
    first, second = (Script(rng, n, rules, log.encode('latin-1')) for n in (1, 2))
    first.at_once()
    second.by_pieces(pages)
    if big:
        first.page('verdicts', 2)
        first.turn('sheet', 77)
    else:
        first.end()
    second.end()
    slips(rng, first)
    slips(rng, second)
    return text, log, mixed(rng, first.turns, second.turns)


def random_pattern(rng, bound, deadline):
    """A pattern's text and the letters that it binds. A deadline asks for the kinds that come more seldom."""
    r = rng.random()
    if r < (.25 if deadline else .03):
        return 'never', set()
    if r < (.27 if deadline else .07):
        return '[]', set()
    free = [x for x in audit.LETTERS if x not in bound]
    if deadline and bound and free and r < .5:
        return '[time %s if %s >= %s + %d]' % (free[0], free[0], rng.choice(sorted(bound)), rng.randint(1, 6)), {free[0]}
    binders, letters = [], set()
    fields = rng.sample(audit.FIELDS, rng.choice([0, 1, 1, 2]))
    if rng.random() < .9 and 'kind' not in fields:
        fields = ['kind'] + fields
    for f in fields:
        if rng.random() < (.1 if f == 'kind' else .8):
            # a letter that is bound asks for its value, another is given the field's
            pool = sorted(bound - letters) if rng.random() < .5 else []
            letter = rng.choice(pool or [x for x in audit.LETTERS if x not in letters])
            letters.add(letter)
            binders.append(f + ' ' + letter)
        else:
            number = rng.randint(0, 2) if f != 'kind' else rng.choice([4, 5]) if deadline else rng.choice([1, 2, 3])
            binders.append(f + ' %d' % (number if rng.random() < .98 else 7000000))
    conditions = []
    pool = sorted(bound | letters)
    if pool and rng.random() < .3:
        conditions = [random_condition(rng, pool) for _ in range(rng.choice([1, 1, 1, 2, 4]))]
    text = ', '.join(binders) + (' if ' + ', '.join(conditions) if conditions else '')
    return '[' + text.strip() + ']', letters


def random_condition(rng, pool):
    def part():
        r = rng.random()
        if r < .35:
            return str(rng.randint(0, 5) if r < .34 else 9999999)
        letter = rng.choice(pool)
        return letter if r < .8 else '%d*%s' % (rng.choice([0, 1, 2, 3, 9999999]), letter)

    def total():
        return ' + '.join(part() for _ in range(rng.choice([1, 1, 1, 2, 3])))

    return total() + rng.choice([' <= ', ' >= ', ' <= ', ' >= ', ' = ']) + total()


def random_rule(rng, depth, bound):
    r = rng.random()
    if depth <= 1 or r < .2:
        word = rng.choice(['must', 'must', 'mustnot'])
        return '%s %s before %s' % (word, random_pattern(rng, bound, word == 'mustnot')[0], random_pattern(rng, bound, True)[0])
    if r < .65:
        first, new = random_pattern(rng, bound, False)
        second = random_pattern(rng, bound, True)[0]
        return '%s %s until %s then %s' % (rng.choice(['each', 'each', 'once']), first, second, random_rule(rng, depth - 1, bound | new))
    return '(%s %s %s)' % (random_rule(rng, depth - 1, bound), rng.choice(['else', 'and']), random_rule(rng, depth - 1, bound))


def random_book(rng):
    rules = [random_rule(rng, rng.choice([1, 2, 3, 4, 4]), set()) for _ in range(rng.randint(1, 3))]
    return ''.join(r + ';\n' for r in rules)


def spoiled(rng, text):
    """A line's text with a fault in it."""
    at = rng.choice([7, 11, 16, 21, 26, 33])
    way = rng.randint(0, 4)
    if way == 0:
        return text[:34] + rng.choice(' .0')
    if way == 1:
        return text[:at] + rng.choice('xA.') + text[at + 1:]
    if way == 2:
        return text[:at - 1] + '0' + text[at:]
    if way == 3:
        return ' ' * 8 + text[8:]
    return text[:at - 3] + '1234' + text[at + 1:]


def random_log(rng):
    time, out = rng.randint(0, 3), ''
    for _ in range(rng.randint(0, 14)):
        time += rng.choice([0, 0, 1, 1, 2])
        back = rng.random() < .07
        values = [max(0, time - rng.randint(1, 3)) if back else time, rng.choice([0, 1, 1, 1, 2, 2, 2, 3, 3, 3, 4, 5])]
        values += [rng.choice([0, 1, 1, 2]) for _ in range(4)]
        if rng.random() < .03:
            field = rng.randint(2, 5)
            values[field] = LIMITS[field]
        text = row(*values, blank=rng.random() < .3)
        out += spoiled(rng, text) if rng.random() < .08 else text
    return out + (' ' * rng.randint(1, 34) if rng.random() < .06 else '')


def randoms(count, start):
    rng = random.Random(start)
    return [case(rng, random_book(rng), random_log(rng)) for _ in range(count)]


def worked():
    """Worked logs, as pairs of a book and a log."""
    task, again = 'must [kind 1] before [kind 2];', 'once [kind 1] until never then must [kind 1] before never;'
    rounds, instead = EACH % '[kind 9]', '(must [kind 3] before [kind 4] else must [kind 5] before never);'
    pairs = [(task, kinds(1)), (task, kinds(2)), (task, ''), ('must [] before [];', kinds(7)), ('mustnot [kind 1] before never;', kinds(3, 1)),
             (rounds, kinds(1, 1, 3, 9)), (rounds, kinds(1, 9)), (rounds, kinds(1, 9, 3)), (rounds, kinds(1, 4)),
             (again, kinds(1)), (again, kinds(1, 1)), (instead, kinds(5, 4)), (instead, kinds(5, 4, 5))]
    # no rule, and no line or some
    pairs += [('', ''), ('\n', kinds(1, 2))]
    # the closing of a run, and its barring in time, late, and never
    data = os.path.join(HERE, '..', 'crates', 'audit', 'data')
    closing, log = (open(os.path.join(data, 'closing.' + x)).read() for x in ('book', 'log'))
    close, bar, guard = row(100, 10, 7, 3, 21, 0), row(339, 11, 7, 3, 21, 0), row(459, 12, 7, 3, 21, 0)
    pairs += [(closing, log), (closing, close + bar), (closing, close + row(340, 11, 7, 3, 21, 0)), (closing, log + guard),
              (closing, log + row(460, 12, 7, 3, 21, 0)), (closing, close + row(340, 12, 7, 3, 21, 0) + guard)]
    # a letter that is bound asks for its value, in the end of a trigger too
    nested = 'each [run A] until never then each [crew A, run B] until [machine B] then must [reading A, crew B] before [kind 9];\n'
    pairs += [(nested, row(0, 0, 0, 0, 2, 0) + row(0, 0, 0, 2, 3, 0) + row(0, 0, 5, 3, 3, 2) + row(1, 0, 3, 0, 4, 0))]
    # refused texts
    pairs += [('must [kind 1] before;', ''), ('must [if A = 1] before never;', kinds(1)), ('must [kind 01] before never;', '')]
    # sums beyond 32 bits, and largest values
    most = '9999999*A + 9999999*A + 9999999*A'
    pairs += [('must [time A if 1000*A >= 9999999] before never;', row(4294968, 0, 0, 0, 0, 0)),
              ('must [time A if %s >= 9999999*A + 9999999*A + 9999999] before never;' % most, row(*LIMITS)),
              ('must [time A, reading B if %s = %s] before [kind 999];' % (most, most), row(*LIMITS) + row(*LIMITS))]
    # blank time, blank kind, two fields at fault, no line feed, a time that goes back, a short item
    sound = row(5, 1, 2, 0, 4, 6)
    pairs += [(task, ' ' * 8 + sound[8:] + sound[:8] + ' ' * 4 + sound[12:] + sound[:15] + '02' + sound[17:33] + 'x\n' + sound[:34] + ' ' + row(5, 7, 0, 0, 0, 0)
               + row(4, 1, 0, 0, 0, 0) + row(5, 2, 0, 0, 0, 0) + sound[:33] + '\n')]
    # sixteen rules
    pairs += [(''.join('must [kind %d] before [kind %d];\n' % (k, k + 16) for k in range(16)), kinds(3, 15, 18, 16, 31))]
    # eight nodes inside one another
    pairs += [('each [kind 1, run A] until never then ' * 7 + 'must [run A] before never;', kinds(1, 1, 1, 1))]
    return pairs


def full_sheets():
    """Books and logs that fill the 256 places."""
    last = 'must [kind 1, run 5] before never;\n'
    return [(EACH % 'never', kinds(*[1] * 255, 1, 2)),
            (EACH % 'never', kinds(*[1] * 255, 1, 2, 3, 1)),
            # three entries for each duty; one side of each bracket done, then more duties
            (PAIR, kinds(*[1] * 85, 1, 3, *[1] * 56, 1, 3, 1)),
            # the line that opens one duty too many also decides another rule
            (EACH % 'never' + last, kinds(*[1] * 254, 1) + row(0, 1, 0, 0, 5, 0) + kinds(1, 3)),
            # the line that opens one duty too many also breaches its rule
            ('(' + (EACH % 'never')[:-2] + ' and mustnot [kind 1, run 5] before never);\n', kinds(*[1] * 253, 1) + row(0, 1, 0, 0, 5, 0))]


def stop_text(stop):
    if isinstance(stop, audit.Fault):
        return '%d:%d:%d:%d' % stop
    return str(stop)


def answer(account, call, numbers):
    """What is answered to a turn, and the buffer of a page call afterwards."""
    if call == 'take':
        lines, stop = account.take(*numbers)
        return 'took:%d:%s' % (lines, stop_text(stop)), None
    if call == 'skip':
        return ('skipped' if account.skip(*numbers) else 'skip:43'), None
    page, room = account.page(call), numbers[0]
    if len(page) > room:
        return 'page:42', '.' * room
    return 'page:%d' % len(page), page + '.' * (room - len(page))


def printed(number, the_case):
    text, log, turns = the_case
    out = 'case %d\n' % number
    found = book.read(text.encode())
    if found[0] != 'ok':
        return out + 'refused %d at %d\n' % found
    rules = audit.rules_of(text.encode())
    for side, name in ((1, 'first'), (2, 'second')):
        account = audit.Account(rules, [audit.items_of(log.encode('latin-1'), side)])
        answers = [answer(account, t[1], t[2:]) for t in turns if t[0] == side]
        out += name + ':' + ''.join(' ' + a for a, _ in answers) + '\n'
        out += ''.join(b + '\n' for _, b in answers if b is not None)
    return out


def written(the_case):
    text, log, turns = the_case
    lines = ''.join(' '.join(map(str, t)) + '\n' for t in turns)
    assert '--\n' not in text + log and '==\n' not in text + log
    return text + '--\n' + log + '--\n' + lines + '==\n'


def table():
    rng = random.Random(7)
    cases = [case(rng, *pair) for pair in worked()]
    cases += [case(rng, *pair, pages=.01, big=True) for pair in full_sheets()]
    # a sound line that the first auditor skips, so that the logs differ
    cases.append((EACH % '[kind 9]', kinds(1, 1, 4, 9), [(1, 'take', 0, 2), (1, 'skip', 0), (1, 'take', 0, 9), (2, 'take', 0, 9), (1, 'verdicts', 15), (2, 'verdicts', 15), (1, 'sheet', 300)]))
    return cases + randoms(250, 20)


def main():
    if len(sys.argv) > 2:
        cases = randoms(int(sys.argv[1]), 99)
        got = subprocess.run([sys.argv[2]], input=''.join(map(written, cases)).encode(), capture_output=True).stdout.decode()
        want = [printed(n, c) for n, c in enumerate(cases, 1)]
        got = got.split('case ')[1:]
        print(len(cases), 'cases,', sum('case ' + g != w for g, w in zip(got, want)) + abs(len(got) - len(want)), 'differ')
        return
    cases = table()
    folder = os.path.join(HERE, '..', 'crates', 'audit_cases')
    os.makedirs(folder, exist_ok=True)
    with open(os.path.join(folder, 'stdin'), 'w') as f:
        f.write(''.join(map(written, cases)))
    with open(os.path.join(folder, 'stdout'), 'w') as f:
        f.write(''.join(printed(n, c) for n, c in enumerate(cases, 1)))
    print(len(cases), 'cases')


if __name__ == '__main__':
    main()
