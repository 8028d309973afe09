#!/usr/bin/env python3
# Makes crates/grammar_law/specs/Tables.antt, the tables of crates/tables/src and the strengths of crates/tiers from the grammar in
# crates/language/specs, and crates/spellings/src/data.rt from its lists of words. Nothing rests on it: every entry of every table
# is tested where it is proved.
import os
import re
import textwrap

ROOT = os.path.join(os.path.dirname(os.path.abspath(__file__)), '..', 'crates')
IN, OUT, FIRST_PART, COLUMNS = 126, 127, 128, 128


def text(crate, module):
    lines = open(os.path.join(ROOT, crate, 'specs', module + '.antt')).read().split('\n')
    return '\n'.join(l for l in lines if not l.startswith('--'))


def block(source, head):
    start = source.index('\n' + head + ' =') + len(head) + 3
    return re.split(r'\n(?=\S)', source[start:], maxsplit=1)[0]


def strings(source, head):
    return re.findall(r'"([^"]*)"', block(source, head))


def rows_of(body):
    rows, row, depth = [], [], []
    for t in re.findall(r'"[^"]*"|[()∣∎]|Tier n|Tier \(suc n\)|Further n|[A-Za-z]+', body):
        if t[0] == '"':
            row.append(('word', t[1:-1]))
        elif t in ('name', 'number'):
            row.append(('kind', t))
        elif t == 'level':
            depth.append(True)
            row.append('In')
        elif t == ')':
            depth.pop()
            row.append('Out')
        elif t == '∣':
            rows.append(row)
            row = []
        elif t[0].isupper():
            row.append(('part', 'Tier 0' if t == 'Expression' else t))
    return rows


words, grammar = text('language', 'Words'), text('language', 'Grammar')
kinds = ['name', 'number'] + strings(words, 'signs') + strings(words, 'reserved')
binding = re.findall(r'(between|before) (\([^)]*\)|"[^"]*")', block(grammar, 'binding'))
named = [p for p in re.findall(r'^csml (\w+) =', grammar, flags=re.M)]
grammar_rows = {p: rows_of(block(grammar, 'csml ' + p)) for p in named}
for n, (where, ops) in enumerate(binding):
    ops, above = re.findall(r'"([^"]*)"', ops), ('part', 'Tier %d' % (n + 1))
    if where == 'before':
        grammar_rows['Tier %d' % n] = [['In', ('word', ops[0]), ('part', 'Tier %d' % n), 'Out'], [above]]
    else:
        grammar_rows['Tier %d' % n] = [[above, ('part', 'Further %d' % n)]]
        grammar_rows['Further %d' % n] = [[]] + [[('word', o), above, ('part', 'Further %d' % n)] for o in ops]
grammar_rows['Tier %d' % len(binding)] = rows_of(block(grammar, 'operand'))
parts = named + ['Tier %d' % n for n in range(len(binding) + 1)] + [p for p in grammar_rows if p.startswith('Further')]


def is_part(x):
    return x[0] == 'part'


def byte(x):
    if x in ('In', 'Out'):
        return IN if x == 'In' else OUT
    return FIRST_PART + parts.index(x[1]) if is_part(x) else 1 + kinds.index(x[1])


def fixed(start, step):
    now = {p: start for p in parts}
    while True:
        then = {p: step(now, p) for p in parts}
        if then == now:
            return now
        now = then


empty = fixed(False, lambda e, p: any(all(x in ('In', 'Out') or is_part(x) and e[x[1]] for x in r) for r in grammar_rows[p]))


def begin(first, after, row):
    out = set()
    for x in row:
        if x in ('In', 'Out'):
            continue
        if not is_part(x):
            return out | {byte(x)}
        out |= first[x[1]]
        if not empty[x[1]]:
            return out
    return out | after


first = fixed(frozenset(), lambda f, p: frozenset().union(*(begin(f, set(), r) for r in grammar_rows[p])))
follow = fixed(frozenset(), lambda f, p: frozenset().union(*(
    begin(first, f[q], r[i + 1:]) for q in parts for r in grammar_rows[q] for i, x in enumerate(r) if x == ('part', p))))


def calls(deep, row):
    most, level = 0, 0
    for i, x in enumerate(row):
        level += {'In': 1, 'Out': -1}.get(x, 0) if isinstance(x, str) else 0
        if is_part(x) and level == 0:
            most = max(most, deep[x[1]] + (i < len(row) - 1))
    return most


def idle(turns, row):
    if not row or not (isinstance(row[0], str) or is_part(row[0])):
        return 0
    if is_part(row[0]) and len(row) == 1:
        return 1 + turns[row[0][1]]
    return 1 + idle(turns, row[1:])


depth = fixed(0, lambda d, p: max(calls(d, r) for r in grammar_rows[p]))
turn = fixed(0, lambda t, p: max(idle(t, r) for r in grammar_rows[p]))
rows, calls = [0, FIRST_PART, 0], {p: [] for p in parts}
for p in parts:
    for r in grammar_rows[p]:
        words_before = sorted(t for _, ts in calls[p] for t in ts)
        called_by = sorted(begin(first, follow[p], r))
        assert not set(words_before) & set(called_by), p
        calls[p].append((len(rows), called_by))
        rows += [byte(x) for x in r] + [0]


def listed(values):
    return ' ∷ '.join([str(v) for v in values] + ['[]'])


def part_calls(p):
    return '(%s)' % listed(['(%d, %s)' % (at, listed(ts)) for at, ts in calls[p]])


def numbers(name, comment, value):
    lines = ['-- ' + comment, 'unfoldable pub %s : Part → ℕ' % name]
    lines += ['%s %s = %d' % (name, p, value[p]) for p in named]
    for kind in ('Tier', 'Further'):
        values = [value.get('%s %d' % (kind, n), 0) for n in range(len(binding) + 1)]
        lines.append('%s (%s n) = get_or (%s) n %d' % (name, kind, listed(values[:-1]), values[-1]))
    return '\n'.join(lines) + '\n'


out = '''-- The grammar's rows as bytes, and where each row begins that a word calls for. Made by tools/tables.py; nothing rests on how: proofs/Serves tests every entry.
-- Assumes nothing.
use Rattle.std.specs.Prelude.{List, [], ◌∷◌, ℕ, get_or}
use Rattle.language.specs.Grammar.{Part, %s}

-- the parts in the order of their numbers
unfoldable pub parts : List Part
parts = %s

-- row 1 is the start; a row ends at 0
unfoldable pub rows : List ℕ
rows = %s

-- how many bytes that is, how many cells the table of starts has, and how many of them are not 0
abbrev pub row_bytes : ℕ
row_bytes = %d

abbrev pub cell_count : ℕ
cell_count = %d

abbrev pub call_count : ℕ
call_count = %d

-- the rows of each part in order: where one begins, and the kinds of the words that call for it
unfoldable pub calls : List (List (ℕ × List ℕ))
calls =
%s

%s
%s''' % (', '.join(named + ['Tier', 'Further']), listed(parts), listed(rows), len(rows), COLUMNS * len(parts), sum(len(ts) for p in parts for _, ts in calls[p]),
         '\n'.join('    %s%s' % ('∷ ' if i else '', part_calls(p)) for i, p in enumerate(parts)) + '\n    ∷ []',
         numbers('depth', 'how many calls deep a part goes before a level opens', depth),
         numbers('turn', 'how many turns a part takes at most before a word is read', turn))
open(os.path.join(ROOT, 'grammar_law', 'specs', 'Tables.antt'), 'w').write(out)


def const(comment, name, kind, values, notes=None):
    lines = ['// ' + comment, 'pub const %s: [%s; %d] = [' % (name, kind, len(values))]
    if notes:
        lines += ['    %d,%s' % (v, ' // ' + notes[i] if notes[i] else '') for i, v in enumerate(values)]
    else:
        lines += textwrap.wrap(' '.join('%d,' % v for v in values), 99, initial_indent='    ', subsequent_indent='    ')
    lines += ['];']
    return '\n'.join(lines) + '\n'


def source(crate, module, text):
    open(os.path.join(ROOT, crate, 'src', module + '.rt'), 'w').write(text)


source('tables', 'rows', '// How many bytes the rows have.\npub const LENGTH: usize = %d;\n\n' % len(rows) + const("The grammar's rows: kinds below 126, 126 opens a level, 127 closes one, parts from 128 on; a row ends at 0, and row 1 is the start. Made by tools/tables.py.", 'ROWS', 'u8', rows))
entries = sorted((n * COLUMNS + t, at, '%s: %s' % (p, (['end'] + kinds)[t])) for n, p in enumerate(parts) for at, ts in calls[p] for t in ts)
notes = [e[2] for e in entries]
source('tables', 'calls', '\n'.join([
    '// Which word calls for which row of a part, in the order of the cells. Made by tools/tables.py; what is laid out of it is proved to be the definition\'s.\n',
    '// How many cells the table of starts has, and how many of them are not 0.\npub const CELLS: usize = %d;\n\npub const COUNT: usize = %d;\n' % (COLUMNS * len(parts), len(entries)),
    const('128 times the number of the part, plus the kind of the word.', 'CALLED', 'u16', [e[0] for e in entries], notes),
    const('Where the row begins that it calls for.', 'PLACES', 'u16', [e[1] for e in entries], notes)]))

# ---- the strengths of operators between their operands, by the numbers of their kinds
joins = {o: n for n, (where, ops) in enumerate(binding) if where == 'between' for o in re.findall(r'"([^"]*)"', ops)}
last_join = max(kinds.index(o) for o in joins)
strengths = [joins.get(k, 255) for k in kinds[:last_join + 1]]
open(os.path.join(ROOT, 'tiers', 'specs', 'Strengths.antt'), 'w').write('''-- The strength of an operator between its operands, by the number of its kind; 255 for every other word. Made by tools/tables.py; nothing rests on how: proofs/Chosen tests every entry.
-- Assumes nothing.
use Rattle.std.specs.Prelude.{List, [], ◌∷◌, ℕ}

abbrev pub strengths : List ℕ
strengths = %s
''' % listed(strengths))
source('tiers', 'strengths', const('The strength of an operator between its operands, by the number of its kind; 255 for every other word. Made by tools/tables.py; every entry is tested by a proof.', 'STRENGTHS', 'u8', strengths, kinds))

# ---- the spellings
signs, reserved = strings(words, 'signs'), strings(words, 'reserved')
spellings = signs + reserved


def like(c, last, k):
    return next((j for j in range(k, last) if spellings[j][0] == c), last)


LOW, HIGH, LETTERS = ([chr(c) for c in range(a, b)] for a, b in ((32, 64), (64, 128), (97, 123)))
long_signs = max(k for k, g in enumerate(signs) if g[1:]) + 1


def first_signs(bytes):
    firsts = [like(c, len(signs), 0) for c in bytes]
    return 'u8', firsts, [c if k < len(signs) else '%d' % ord(c) for c, k in zip(bytes, firsts)]


tables = [
    "// The spellings: the signs, then the reserved words, in the language's order. Made by tools/tables.py; every entry is tested by a proof.\n",
    "// All of them in one row.\npub const ROW: [u8; %d] =\n    *b\"%s\";\n" % (len(''.join(spellings)), ''.join(spellings)),
    const('Where each begins in the row, and where the last one ends.', 'STARTS', 'u8', [len(''.join(spellings[:k])) for k in range(len(spellings) + 1)], spellings + ['']),
    const('The first sign that begins with each byte from 32 to 63; %d where none does.' % len(signs), 'LOW_SIGNS', *first_signs(LOW)),
    const('.. from 64 to 127.', 'HIGH_SIGNS', *first_signs(HIGH)),
    '// The signs from this one on have one byte.\npub const LONG_SIGNS: usize = %d;\n' % long_signs,
    const('The second byte of those before; 0 where there is none.', 'SECONDS', 'u8', [ord(g[1]) if g[1:] else 0 for g in signs[:long_signs]], signs),
    const('The next sign that begins as each of them does.', 'NEXT_SIGN', 'u8', [like(g[0], len(signs), k + 1) for k, g in enumerate(signs[:long_signs])], signs),
    const('The first reserved word that begins with each small letter; %d where none does.' % len(spellings), 'FIRST_RESERVED', 'u8', [like(c, len(spellings), len(signs)) for c in LETTERS], LETTERS),
    const('The next reserved word that begins as each does.', 'NEXT_RESERVED', 'u8', [like(g[0], len(spellings), len(signs) + k + 1) for k, g in enumerate(reserved)], reserved),
    const('How many bytes each reserved word has.', 'SIZES', 'u8', [len(g) for g in reserved], reserved),
]
source('spellings', 'data', '\n'.join(tables))
print('%d kinds, %d parts, %d bytes of rows, %d calls, depth %d, turns %d' % (len(kinds), len(parts), len(rows), len(entries), max(depth.values()), max(turn.values())))
