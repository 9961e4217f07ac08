#!/usr/bin/env python3
"""Holds the Rust version's answers against the definitions.

usage: definitions.py SEED COUNT [FOLDER]

Takes the cases of `m7-cases SEED COUNT`, states each answer as an equation over the definitions in a crate
`compare` in FOLDER (outside the repository; default: a temporary one), and has the prover compute them.
It prints the number of cases by kind and by refusal number, and fails if the prover does not agree.
"""
import collections
import os
import shutil
import subprocess
import sys
import tempfile

HERE = os.path.dirname(os.path.abspath(__file__))
REFERENCE = os.path.dirname(HERE)
REPOSITORY = os.path.dirname(REFERENCE)
BATCH = 20

HEADER = '''-- Answers of the Rust version, as equations over the definitions.
use mathlib.Core.Path.{_≡_, refl}
use Prim.Native.Nat.{ℕ, zero, suc}
use mathlib.Core.List.{List, [], _∷_, _++_}
use lib.ListN.{length, replicate}
use Rattle·macros.specs.Refusals.{fileNumber}
use Rattle·macros.specs.Macro.{Macro, Table}
use Rattle·macros.specs.ReadFile.{Read, readFile}
use Rattle·macros.specs.ReadFile.Read.{refusedAt, table}
use Rattle·macros.specs.Write.{Written, writeOut}
use Rattle·macros.specs.Write.Written.{file, refused}
use Rattle·macros.specs.Spell.{shortest}
use mathlib.Core.Option.{Option, none, some}
use Rattle·lines.specs.State.{State, Stack, Counter, fresh}
use Rattle·lines.specs.Line.{Sent}
use Rattle·lines.specs.Feeding.{Answer, numberOf, placeOf, kindNumber, outputOf, feeds, bytes}
use Rattle·lines.specs.Cases.{everything}

-- a text so many times
abbrev times : ℕ → List ℕ → List ℕ
times zero s = []
times (suc n) s = s ++ times n s

-- a line, by its bytes, and its budget
abbrev sent : ℕ → List ℕ → Sent
sent n t = record { line = t; budget = n }

-- a list with its length before it
abbrev listed : List ℕ → List ℕ
listed s = length s ∷ s

abbrev spelledLengths : Table → List ℕ
spelledLengths [] = []
spelledLengths (m ∷ ms) = length (shortest m) ∷ spelledLengths ms

abbrev writtenAs : Written → List ℕ
writtenAs (refused r p) = 0 ∷ fileNumber r ∷ p ∷ []
writtenAs (file s) = 1 ∷ listed s

-- a file: refused, or its macros, written out, and the lengths of their shortest spellings
abbrev readAs : Read → List ℕ
readAs (refusedAt r p) = 0 ∷ fileNumber r ∷ p ∷ []
readAs (table ms) = 1 ∷ length ms ∷ (writtenAs (writeOut ms) ++ spelledLengths ms)

abbrev entriesAs : List (List ℕ) → List ℕ
entriesAs [] = []
entriesAs (e ∷ es) = listed e ++ entriesAs es

abbrev stacksAs : List Stack → List ℕ
stacksAs [] = []
stacksAs (k ∷ ks) = (k .pointer ∷ entriesAs (k .entries)) ++ stacksAs ks

abbrev countersAs : List Counter → List ℕ
countersAs [] = []
countersAs (k ∷ ks) = k .value ∷ k .increment ∷ countersAs ks

abbrev stateAs : State → List ℕ
stateAs st = st .trace ∷ st .nflag ∷ (stacksAs (st .stacks) ++ countersAs (st .counters))

-- 02, N1: the trace that a line writes, if it writes one
abbrev traceAs : Option (List ℕ) → List ℕ
traceAs none = 0 ∷ []
traceAs (some s) = 1 ∷ listed s

-- the answers to some lines, and the number of macros and the state at the end
abbrev answersAs : Table → State → List Answer → List ℕ
answersAs ms st [] = length ms ∷ stateAs st
answersAs ms st (a ∷ as₁) =
    (numberOf (a .kind) ∷ placeOf (a .kind) ∷ a .passes ∷ kindNumber (a .kind) ∷ listed (outputOf (a .kind)))
    ++ (traceAs (a .traceText) ++ answersAs (a .table) (a .state) as₁)

abbrev fedAs : List Sent → Read → List ℕ
fedAs xs (refusedAt r p) = []
fedAs xs (table ms) = answersAs ms fresh (feeds ms fresh xs)

'''


def value(word):
    """The bytes of a word of a case."""
    if word == '-':
        return b''
    out = b''
    for piece in word.split('+'):
        digits, _, times = piece.partition('*')
        out += bytes.fromhex(digits) * int(times or 1)
    return out


def plain(data):
    """Bytes as a term."""
    if data and all(32 <= b < 127 or b == 10 for b in data):
        return 'bytes "%s"' % data.decode().replace('\\', '\\\\').replace('"', '\\"').replace('\n', '\\n')
    return '(' + ' ∷ '.join([str(b) for b in data] + ['[]']) + ')'


def term(word):
    """A word of a case as a term that computes to its bytes."""
    if word == '-':
        return '[]'
    pieces = []
    for piece in word.split('+'):
        digits, _, times = piece.partition('*')
        data = bytes.fromhex(digits)
        if not times:
            pieces.append('(%s)' % plain(data))
        elif len(data) == 1:
            pieces.append('replicate %s %d' % (times, data[0]))
        else:
            pieces.append('times %s (%s)' % (times, plain(data)))
    text = pieces[-1]
    for piece in reversed(pieces[:-1]):
        text = '%s ++ (%s)' % (piece, text)
    return text


def numbers(*values):
    return ' ∷ '.join([str(v) for v in values] + ['[]'])


def listed(word):
    return '(%d ∷ (%s))' % (len(value(word)), term(word))


def traced(word):
    return '(0 ∷ [])' if word == '.' else '(1 ∷ %s)' % listed(word)


def state_numbers(words):
    """The whole state as numbers, from the words that differ from the fresh one."""
    flags = {'T': 0, 'N': 0}
    pointers, entries, values, increments = {}, {}, {}, {}
    for word in words:
        name, _, rest = word.partition('=')
        if word in ('T1', 'N1'):
            flags[word[0]] = 1
        elif name[0] == 'p':
            pointers[name[1]] = int(rest)
        elif name[0] == 'e':
            entries[name[1], int(name[2:])] = bytes.fromhex(rest)
        elif name[0] == 'c':
            values[name[1]] = int(rest)
        elif name[0] == 'i':
            increments[name[1]] = int(rest)
    out = [flags['T'], flags['N']]
    letters = [chr(97 + i) for i in range(26)]
    for i in letters:
        out.append(pointers.get(i, 1))
        for n in range(1, 21):
            entry = entries.get((i, n), b'')
            out += [len(entry)] + list(entry)
    for i in letters:
        out += [values.get(i, 1), increments.get(i, 1)]
    return out


def read_case(words, count):
    """An `R` line as an equation."""
    left = 'readAs (readFile (%s))' % term(words[2])
    if words[3] == 'no':
        count[int(words[4])] += 1
        return '%s ≡ %s' % (left, numbers(0, words[4], words[5]))
    count['read'] += 1
    lengths = [] if words[-1] == '-' else words[-1].split(',')
    if words[5] == 'no':
        count[int(words[6])] += 1
        return '%s ≡ %s' % (left, numbers(1, words[4], 0, words[6], words[7], *lengths))
    return '%s ≡ 1 ∷ %s ∷ ((1 ∷ %s) ++ (%s))' % (left, words[4], listed(words[6]), numbers(*lengths))


def line_case(head, fed, end, count):
    """An `L` line with its `F` lines and its `S` line as an equation."""
    xs, answers = [], []
    for words in fed:
        xs.append('sent %s (%s)' % (words[1], term(words[2])))
        number, place, passes, kind = words[3:7]
        count[int(number) or {'1': 'out', '2': 'withheld', '3': 'control'}[kind]] += 1
        answers.append('((%s ∷ %s ∷ %s ∷ %s ∷ []) ++ (%s ++ %s))' % (
            number, place, passes, kind, listed(words[7]), traced(words[8])))
    text = '(%s)' % numbers(end[1], *state_numbers([w for w in end[2:] if w != 'fresh']))
    for answer in reversed(answers):
        text = '(%s ++ %s)' % (answer, text)
    return 'fedAs (%s) (readFile (%s)) ≡ %s' % (' ∷ '.join(xs + ['[]']), term(head[2]), text)


def equations(lines, count):
    """Each case's equation, with whether it is a long one."""
    rows = [line.split() for line in lines]
    i = 0
    while i < len(rows):
        words = rows[i]
        if words[0] == 'R':
            yield words[1] == 'l', read_case(words, count)
            i += 1
        else:
            k = int(words[3])
            yield words[1] == 'l', line_case(words, rows[i + 1:i + 1 + k], rows[i + 1 + k], count)
            i += k + 2


def theorem(name, rows):
    body = ' ×\n'.join('    (%s)' % row for row in rows)
    return 'pub %s :\n%s\nunfolding everything\n%s = %s\n\n' % (
        name, body, name, 'refl' if len(rows) == 1 else '(%s)' % ', '.join(['refl'] * len(rows)))


def crate(folder, cases):
    """The repository of the check: the definitions' crates and one that states the answers."""
    for name in ('kinds', 'macros', 'lines'):
        shutil.copytree(os.path.join(REPOSITORY, 'crates', name), os.path.join(folder, 'crates', name),
                        ignore=shutil.ignore_patterns('must-fail'))
    with open(os.path.join(folder, 'crates.txt'), 'w') as out:
        out.write('kinds:\nmacros:\nlines: kinds macros\ncompare: macros lines\n')
    for part in ('src', 'specs'):
        os.makedirs(os.path.join(folder, 'crates/compare', part))
    with open(os.path.join(folder, 'crates/compare/src/lib.rt'), 'w') as out:
        out.write('// A check of the definitions.\n')
    with open(os.path.join(folder, 'crates/compare/specs/Lib.antt'), 'w') as out:
        out.write('pub mod Answers\n')
    short = [row for is_long, row in cases if not is_long]
    groups = [[row] for is_long, row in cases if is_long] + [short[i:i + BATCH] for i in range(0, len(short), BATCH)]
    with open(os.path.join(folder, 'crates/compare/specs/Answers.antt'), 'w') as out:
        out.write(HEADER)
        for i, group in enumerate(groups):
            out.write(theorem('agree%d' % i, group))
    subprocess.run(['git', 'init', '-q', folder], check=True)


def main():
    seed, amount = sys.argv[1], sys.argv[2]
    folder = sys.argv[3] if len(sys.argv) > 3 else tempfile.mkdtemp()
    made = subprocess.run(['cargo', 'run', '--offline', '--release', '--quiet', '--bin', 'm7-cases', seed, amount],
                          cwd=REFERENCE, check=True, capture_output=True, text=True)
    count = collections.Counter()
    cases = list(equations(made.stdout.splitlines(), count))
    crate(folder, cases)
    done = subprocess.run(['rt', 'check', 'compare'], cwd=folder, capture_output=True, text=True)
    print(done.stdout[-3000:])
    print('%d cases' % len(cases))
    for key in sorted(count, key=str):
        print('  %s: %d' % (key, count[key]))
    print('agree' if done.returncode == 0 else 'DIFFER, or not computed; see %s' % folder)
    sys.exit(done.returncode)


if __name__ == '__main__':
    main()
