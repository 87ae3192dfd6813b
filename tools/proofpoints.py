#!/usr/bin/env python3
"""Names the points of the walk in proof files, and lays their lines out.

It works on proofs of the older form (Proof.antt, with `.before` and `Need-..`) and calls `rt dev`, which today's kit has not. With today's proof files,
Invariants.antt and Answers.antt, only `--laws` works, and the rest is not needed: there `c` is one flat record, whose fields the check lists, and `rt fmt` lays
the files out. The rest is kept for who works on a version with the older proofs, with its kit.

    python3 tools/proofpoints.py CRATE [FUNCTION..]            rewrites proofs/**/Proof.antt of the crate, or of these functions
    python3 tools/proofpoints.py CRATE [FUNCTION..] --check    does so, and checks the crate: an answer that is refused keeps its paths
    python3 tools/proofpoints.py CRATE [FUNCTION..] --infer    does so, and puts `_` for arguments that the checker finds by itself
    python3 tools/proofpoints.py CRATE --laws                  breaks the long lines of its specs and laws, and changes nothing else
    python3 tools/proofpoints.py CRATE [FUNCTION..] --things   prints what can be cited in each need, as name@count of `.before`

In an answer the path `c .before .before .args .a` becomes `at-start .args .a`, with one line `let at-start = c .before .before in`
at its head. A point has the name of the thing that stands there (`at-loop`, `at-if1`, `at-mate`; `at-start` for args and pre) and
is defined from the point before it. An answer whose paths have at most three `.before` keeps them. `@thing` in an answer is the
path to that thing (`@loop .inv .1`, `@args .a .now`); the crate is generated once to find it. Lines get at most 160 characters;
an answer that has such lines and no path to name keeps its layout. The formatter runs last, and a second run changes nothing.

`omega` reads the variables of a `let` too, up to 128 records: an `omega` that closes no longer wants its facts listed
(`omega (arith, @s3 .given, ..)`). With --check such an answer keeps its paths, and a comment above it says so.

--infer checks the crate by `rt dev CRATE`, puts `_` for every argument that is a path to a value, and puts back what the check
refuses, all answers at once (at most 12 checks). A crate that it cannot prove so gets its arguments back.
"""
import glob
import os
import re
import shutil
import subprocess
import sys
import tempfile

WIDTH = 160
KEPT = 3                                     # an answer whose paths have at most so many `.before` keeps them
START = ('args', 'pre', 'good', 'fits', 'κs')   # what stands at the start of the walk
PROOFS = ('taken', 'left', 'ensures', 'inv', 'pre', 'good', 'kept', 'given', 'came')   # fields that are no values
PATH = re.compile(r'(?<![\w.·\'′-])c((?: \.before)+)(?: \.([A-Za-z][\w-]*))?(?![\w-])')
MARK = '-- The paths stand in the answer: `omega` would read each point of a `let` besides.'
BARE = re.compile(r'(^|\s)where(\s|$)|--|\[')     # answers that keep their lines: with `where`, a comment, or cases
POINT = re.compile(r'let (at-[\w-]+) = (c|at-[\w-]+)((?: \.before)*) in\s+')


def root():
    d = os.getcwd()
    while not os.path.exists(os.path.join(d, 'crates.txt')):
        if d == '/':
            raise SystemExit('proofpoints: no crates.txt here or above')
        d = os.path.dirname(d)
    return d


def proof_files(crate, functions):
    base = os.path.join(root(), 'crates', crate, 'proofs')
    found = sorted(glob.glob(os.path.join(base, '**', 'Proof.antt'), recursive=True))
    if not functions:
        return found
    return [f for f in found if any(os.path.relpath(os.path.dirname(f), base) == n or os.path.basename(os.path.dirname(f)) == n
                                    for n in functions)]


# ---- the text of a file: paragraphs, and the clauses of each

class Clause:
    """One clause `name c .. = answer`; `sign` is the text above it (comments, signature, `unfolding`)."""

    def __init__(self, sign, lines, name):
        self.sign, self.lines, self.name = sign, lines, name
        whole = '\n'.join(lines)
        m = re.match(r'(\S+(?: [^\n=]*?)?) =(?:\s+|$)', whole)
        self.left, self.answer = m.group(1), whole[m.end():]
        self.binds_c = re.search(r'(?<![\w-])c(?![\w-])', self.left[len(name):]) is not None
        need = re.search(r'([\w-]+)\.Need-(\S+)', '\n'.join(sign))
        self.need = need.groups() if need else None


def paragraphs(text):
    return [p for p in re.split(r'\n{2,}', text.strip('\n'))]


def clauses(paragraph):
    """The clauses of a paragraph `name : type` .. `name args = answer`, or None where it is another thing."""
    lines = paragraph.split('\n')
    first = next((i for i, l in enumerate(lines) if not l.startswith('--')), None)
    if first is None:
        return None
    m = re.match(r'(?:abbrev |pub |unfoldable |private )*(\S+) :(?: |$)', lines[first])
    if not m:
        return None
    name = m.group(1)
    heads = [i for i, l in enumerate(lines) if i > first and (l.startswith(name + ' ')) and re.match(r'[^=]* =(?: |$)', l)]
    if not heads:
        return None
    return [Clause(lines[:h] if k == 0 else [], lines[h:(heads + [len(lines)])[k + 1]], name) for k, h in enumerate(heads)]


# ---- points

def expand(answer):
    """The answer with every named point as its full path, and without the lines that name them."""
    points = {'c': 0}
    while True:
        m = POINT.match(answer)
        if not m or m.group(2) not in points:
            break
        points[m.group(1)] = points[m.group(2)] + m.group(3).count('.before')
        answer = answer[m.end():]
    for name in sorted(points, key=len, reverse=True):
        if name != 'c':
            answer = re.sub(r'(?<![\w.-])%s(?![\w-])' % re.escape(name), 'c' + ' .before' * points[name], answer)
    return answer


def unparenthesized(answer):
    """`(c .pre) .1` at the head of a term is `c .pre .1`."""
    while True:
        new = re.sub(r'((?:^|[(,;=∙.] ?|\bin ))\(((?:c|at-[\w-]+)(?: \.[\w-]+)*)\)(?= \.[\w])', r'\1\2', answer)
        new = re.sub(r'\(\(((?:c|at-[\w-]+)(?: \.[\w-]+)+)\)\)', r'(\1)', new)
        if new == answer:
            return new
        answer = new


def name_points(answer):
    """(the lines that name the points, the answer that cites them)."""
    cited = {}
    for m in PATH.finditer(answer):
        cited.setdefault(m.group(1).count('.before'), []).append(m.group(2))
    if sum(n * len(things) for n, things in cited.items()) <= KEPT:
        return [], answer
    names, used, lines, last = {}, set(), [], ('c', 0)
    for count in sorted(cited):
        things = [t for t in cited[count] if t]
        base = 'start' if any(t in START for t in things) else things[0] if things else 'point'
        name, k = 'at-' + base, 2
        while name in used:
            name, k = 'at-%s-%d' % (base, k), k + 1
        used.add(name)
        names[count] = name
        lines.append('let %s = %s%s in' % (name, last[0], ' .before' * (count - last[1])))
        last = (name, count)

    def cite(m):
        count = m.group(1).count('.before')
        return names[count] + (' .' + m.group(2) if m.group(2) else '')
    return lines, PATH.sub(cite, answer)


# ---- functions that call each other: the tuple of what the callees ask and tell

NEED = re.compile(r'^(\S+ : \(t : ℕ\) → )(\S+)-lts\.(Need-\S+) \(([^()]*)\) (?=\()', re.M)


def name_callees(text):
    """One abbreviation for the tuple that the needs of a function repeat."""
    tuples = {}
    for m in NEED.finditer(text):
        tuples.setdefault(m.group(2), []).append(flat(m.group(4)).rstrip(', '))
    for name, found in tuples.items():
        if len(set(found)) != 1 or len(found) < 2 or ',' not in found[0]:
            continue
        given = re.search(r'(?<![\w-])t(?![\w-])', found[0]) is not None
        abbrev = '-- What the functions that `%s` calls ask and tell, in the order of its calls.\nabbrev %s-callees : %s%s-lts.Claims\n%s-callees%s = (%s)\n\n' % (
            name, name, 'ℕ → ' if given else '', name, name, ' t' if given else '', found[0].replace(', ', ',\n  '))
        first = next(m for m in NEED.finditer(text) if m.group(2) == name)
        start = text.rfind('\n\n', 0, first.start()) + 2
        text = text[:start] + abbrev + text[start:]
        text = NEED.sub(lambda m: m.group(1) + name + '-lts.' + m.group(3) + (' (%s-callees t) ' if given else ' %s-callees ') % name
                        if m.group(2) == name else m.group(0), text)
    return text


# ---- layout

OPEN, CLOSE = '([{⟨', ')]}⟩'
LOOSE = [('→',), ('×', '⊎'), ('≡', '≤', '<'), ('∙',), ('&&', '||'), ('++', '∷'), ('+', '-'), ('*',)]


def flat(text):
    """The text on one line; the last comma of a tuple on several lines goes."""
    text = re.sub(r'\s+', ' ', text).strip()
    text = re.sub(r'[,;] ([)}])', lambda m: m.group(1) if m.group(1) == ')' else ' }', text)
    return re.sub(r'([(\[]) ', lambda m: m.group(1) if m.group(1) == '(' else '[ ', text)


def pieces(s):
    """Words and bracketed groups of s, with the space between; a projection sticks to what it is taken from."""
    out, depth, start = [], 0, 0
    for i, ch in enumerate(s + ' '):
        if ch in OPEN:
            depth += 1
        elif ch in CLOSE:
            depth -= 1
        elif ch == ' ' and depth == 0:
            word = s[start:i]
            if word:
                if out and re.match(r'\.[\w]', word):
                    out[-1] += ' ' + word
                else:
                    out.append(word)
            start = i + 1
    return out


def split_at(s, mark):
    """s cut at every `mark` (one character) outside of brackets."""
    out, depth, start = [], 0, 0
    for i, ch in enumerate(s):
        if ch in OPEN:
            depth += 1
        elif ch in CLOSE:
            depth -= 1
        elif ch == mark and depth == 0:
            out.append(s[start:i].strip())
            start = i + 1
    return out + [s[start:].strip()]


def closes_at(s):
    """Where the bracket closes that s begins with."""
    depth = 0
    for i, ch in enumerate(s):
        depth += (ch in OPEN) - (ch in CLOSE)
        if depth == 0:
            return i
    return -1


def lay(lead, s, tail, ind, width):
    """Lines for lead + s + tail, broken between arguments, components and operands."""
    pad = ' ' * ind
    if ind + len(lead) + len(s) + len(tail) <= width:
        return [pad + lead + s + tail]
    words = pieces(s)
    if words[0] == 'let' and 'in' in words:
        k = words.index('in')
        rest = ' '.join(words[k + 1:])
        if not rest:
            return fill(lead, words, tail, ind, width)
        return lay(lead, ' '.join(words[:k + 1]), '', ind, width) + lay('', rest, tail, ind, width)
    if s[0] == '(' and closes_at(s) == len(s) - 1:
        parts = split_at(s[1:-1], ',')
        if len(parts) == 1:
            return lay(lead + '(', s[1:-1], ')' + tail, ind, width)
        return [pad + lead + '('] + [l for p in parts for l in lay('', p, ',', ind + 2, width)] + [pad + ')' + tail]
    if s[0] == '(' and re.match(r'( \.[\w-]+)+$', s[closes_at(s) + 1:]):
        k = closes_at(s)
        return lay(lead, s[:k + 1], s[k + 1:] + tail, ind, width)
    m = re.match(r'record \{', s)
    if m and closes_at(s[7:]) == len(s) - 8:
        parts = [p for p in split_at(s[8:-1], ';') if p]
        return [pad + lead + 'record {'] + [l for p in parts for l in lay_field(p, ind + 2, width)] + [pad + '}' + tail]
    m = re.match(r'λ [^.]*?\. ', s)
    if m:
        return lay(lead + m.group(0), s[m.end():], tail, ind, width)
    if len(words) == 1 and s[0] not in OPEN:
        return fill(lead, s.split(' '), tail, ind, width)
    for group in LOOSE:
        if any(w in group for w in words[1:]):
            parts, ops = [[]], []
            for w in words:
                if w in group and parts[-1]:
                    ops.append(w)
                    parts.append([])
                else:
                    parts[-1].append(w)
            if not parts[-1]:
                break
            groups = [[lead, ' '.join(parts[0])]]
            for op, part in zip(ops, parts[1:]):
                at = ind + 4 * (len(groups) > 1)
                if at + sum(map(len, groups[-1])) + 2 + len(op) + sum(len(w) + 1 for w in part) + len(tail) <= width:
                    groups[-1][1] += ' ' + op + ' ' + ' '.join(part)
                else:
                    groups.append([op + ' ', ' '.join(part)])
            return [l for k, (before, text) in enumerate(groups)
                    for l in lay(before, text, tail if k == len(groups) - 1 else '', ind + 4 * (k > 0), width)]
    return fill(lead, words, tail, ind, width)


def lay_field(part, ind, width):
    m = re.match(r'([\w·\'′-]+ = )', part)
    if not m:
        return lay('', part, ';', ind, width)
    return lay(m.group(1), part[m.end():], ';', ind, width)


def fill(lead, words, tail, ind, width):
    """An application: as many arguments on a line as fit."""
    lines, cur, at = [], lead + words[0], ind
    if ind + len(cur) > width and words[0][0] == '(' and len(words) > 1:
        more = lay(lead, words[0], '', ind, width)
        lines, cur = more[:-1], more[-1].strip()
        at = len(more[-1]) - len(cur)
    for k, w in enumerate(words[1:], 1):
        end = tail if k == len(words) - 1 else ''
        if at + len(cur) + 1 + len(w) + len(end) <= width:
            cur += ' ' + w
        elif len(w) + ind + 4 + len(end) <= width:
            lines.append(' ' * at + cur)
            cur, at = w, ind + 4
        else:
            more = lay(cur + ' ', w, '', at, width)
            lines += more[:-1]
            at = len(more[-1]) - len(more[-1].lstrip())
            cur = more[-1].strip()
    return lines + [' ' * at + cur + tail]


def lay_answer(left, points, answer, width):
    one = left + ' = ' + answer
    if not points and len(one) <= width and not answer.startswith('let '):
        return [one]
    if not points and (answer[0] == '(' or answer.startswith('record {')):
        lines = lay(left + ' = ', answer, '', 0, width)
        if lines[0].endswith(('(', '{')):
            return lines
    return [left + ' ='] + ['    ' + p for p in points] + lay('', answer, '', 4, width)


def lay_other(line, width):
    """A long line that is no answer: comment, `use`, `unfolding`, signature or definition."""
    ind = len(line) - len(line.lstrip())
    text = line.strip()
    if text.startswith('-- '):
        lines, cur = [], '--'
        for w in text[3:].split(' '):
            if ind + len(cur) + 1 + len(w) > width:
                lines.append(' ' * ind + cur)
                cur = '--'
            cur += ' ' + w
        return lines + [' ' * ind + cur]
    m = re.match(r'((?:pub )?use \S+\.\{)(.*)\}$', text)
    if m:
        lines, cur = [], ''
        for w in m.group(2).split(', '):
            if cur and ind + len(m.group(1)) + len(cur) + 2 + len(w) + 1 > width:
                lines.append(' ' * ind + m.group(1) + cur + '}')
                cur = ''
            cur += (', ' if cur else '') + w
        return lines + [' ' * ind + m.group(1) + cur + '}']
    if text.startswith('unfolding '):
        return fill('', text.split(' '), '', ind, width)
    if text.startswith('use '):
        return [line]
    excess = sum((ch in OPEN) - (ch in CLOSE) for ch in text)
    if excess < 0 and text.endswith(')' * -excess):          # brackets that were opened on a line above
        lines = lay_other(' ' * ind + text[:excess], width + excess)
        return lines[:-1] + [lines[-1] + text[excess:]]
    if excess > 0:                                           # brackets that are closed on a line below
        lines = lay_other(line + ')' * excess, width)
        return lines[:-1] + [lines[-1][:-excess]] if lines[-1].endswith(')' * excess) else [line]
    if excess:
        return [line]
    if text.startswith('module '):
        return fill('', pieces(text), '', ind, width)
    if POINT.fullmatch(text + ' '):
        k = text.rindex(' ', 0, width - ind)
        return [' ' * ind + text[:k]] + lay_other(' ' * ind + text[k + 1:], width)
    m = re.match(r'((?:(?:abbrev|pub|unfoldable|private) )*\S+ : )(.*)$', text)
    words = pieces(text)
    if not m and '=' in words and words[0] not in ('let', 'record', 'λ'):
        k = len(' '.join(words[:words.index('=') + 1])) + 1
        m = re.match(r'(.{%d})(.*)$' % k, text)
    lead, body = m.groups() if m else ('', text)
    tail = body[-1] if body[-1] in ',;' else ''
    lines = lay(lead, body[:len(body) - len(tail)], tail, ind, width - 4)
    return lines[:1] + ['    ' + l for l in lines[1:]]


# ---- what the crate generates: the things at each place of the walk

class Walk:
    """What `rt dev CRATE --generated` writes of the files; an answer with an `@` is a hole for that time."""

    def __init__(self, crate, files):
        self.crate, self.dir = crate, tempfile.mkdtemp(prefix='proofpoints')
        kept = {f: open(f).read() for f in files}
        try:
            for f, text in kept.items():
                if '@' in text:
                    open(f, 'w').write('\n\n'.join(holes(p) for p in paragraphs(text)) + '\n')
            subprocess.run(['rt', 'dev', crate, '--generated', self.dir], cwd=root(), capture_output=True)
        finally:
            for f, text in kept.items():
                if '@' in text:
                    open(f, 'w').write(text)
        self.read = {}

    def close(self):
        shutil.rmtree(self.dir, ignore_errors=True)

    def things(self, text, alias, need):
        """name → count of `.before`, from the need; `text` is the proof file, `alias` the module before `.Need-`."""
        m = re.search(r'^use Rattle·\S+?·proofs\.proofs\.(\S+)\.(Tie|Lts\S*) as %s$' % re.escape(alias), text, re.M)
        if not m:
            raise SystemExit('proofpoints: no `use .. as %s`' % alias)
        path = os.path.join(self.dir, 'Rattle·%s·proofs' % self.crate, 'proofs', m.group(1).replace('.', '/'),
                            m.group(2).replace('Tie', 'Lts') + '.antt')
        if path not in self.read:
            s, records, needs = open(path).read(), {}, {}
            for r in re.finditer(r'^ {6}pub record (\S+) : Type 0 where\n((?: {8}pub [^\n]*\n|\s{9,}[^\n]*\n)*)', s, re.M):
                records[r.group(1)] = re.findall(r'^ {8}pub (\S+) :\s*(\S+)?', r.group(2), re.M)
            for r in re.finditer(r'^ {6}Need-(\S+) =\s*\(c : (\S+)\)', s, re.M):
                needs[r.group(1)] = r.group(2)
            self.read[path] = records, needs
        records, needs = self.read[path]
        place, count, found = needs.get(need), 0, {}
        while place in records:
            following = None
            for name, kind in records[place]:
                if name == 'before':
                    following = kind
                elif name not in found:
                    found[name] = count
            place, count = following, count + 1
        return found


def holes(paragraph):
    """The paragraph with `?` for each answer that has an `@`."""
    found = clauses(paragraph)
    if not found or '@' not in paragraph:
        return paragraph
    return '\n'.join('\n'.join(c.sign + ([c.left + ' = ?'] if '@' in c.answer else c.lines)) for c in found)


def at_paths(answer, things, where):
    def path(m):
        if m.group(1) not in things:
            raise SystemExit('proofpoints: %s: no %s among %s' % (where, m.group(1), ' '.join(sorted(things))))
        return 'c' + ' .before' * things[m.group(1)] + ' .' + m.group(1)
    return re.sub(r'@([A-Za-z][\w-]*)', path, answer)


# ---- a file

def rewrite_answer(clause, width):
    """The lines of a clause with its points named, laid out."""
    answer = clause.answer
    if flat(answer).startswith('tie.close (tie.spec ') and len(clause.lines) > 2:
        new = fill(clause.left + ' = tie.close (', pieces(flat(answer)[len('tie.close ('):-1]), ')', 0, width)
        return new if len(new) < len(clause.lines) else None
    if not clause.binds_c or not answer:
        return None
    bare = BARE.search(answer) is not None
    whole = unparenthesized(expand(answer if bare else flat(answer)))
    points, named = ([], whole) if MARK in clause.sign else name_points(whole)
    if bare:
        if not points and '\n' in answer:
            return None
        return [clause.left + ' ='] + ['    ' + p for p in points] + ('    ' + named).split('\n')
    same = flat(clause.answer) == flat(' '.join(points + [named])) and len(clause.lines) > len(points)
    if same and all(len(l) <= width for l in clause.lines):
        return None
    return lay_answer(clause.left, points, named, width)


def resolved(text, things, where):
    """The text with a path for each `@thing` of its answers."""
    out = []
    for p in paragraphs(text):
        found = clauses(p)
        if found and '@' in p:
            p = '\n'.join('\n'.join(c.sign + ([c.left + ' = ' + at_paths(flat(expand(c.answer)), things(text, *c.need), where + ' ' + c.name)]
                                              if '@' in c.answer and c.need else c.lines)) for c in found)
        out.append(p)
    return '\n\n'.join(out) + '\n'


def rewrite(text, width=WIDTH, in_place=()):
    """The text of a file rewritten; answers of the names `in_place` keep their paths, with a line that says so."""
    out = []
    for p in paragraphs(name_callees(text)):
        lines = []
        for c in clauses(p) or []:
            if c.name in in_place and c.sign and MARK not in c.sign:
                c.sign.insert(0, MARK)
            new = rewrite_answer(c, width)
            lines += c.sign + (c.lines if new is None else new)
        for l in lines or p.split('\n'):
            out += lay_other(l, width) if len(l) > width else [l]
        out.append('')
    return '\n'.join(out)


def write(path, before, in_place=()):
    """Writes one file; `before` is its text."""
    text = rewrite(before, WIDTH, in_place)
    for width in (WIDTH, WIDTH - 8, WIDTH - 16, WIDTH - 30):
        open(path, 'w').write(text if width == WIDTH else rewrite(text, width))
        done = subprocess.run(['rattle', 'fmt', '--write', path], capture_output=True, text=True)
        if done.returncode:
            open(path, 'w').write(before)
            print('%s: left as it was, the formatter refused it: %s' % (os.path.relpath(path, root()), (done.stdout + done.stderr).strip()))
            return
        long = [l for l in open(path).read().split('\n') if len(l) > WIDTH]
        if not long:
            return
    print('%s: %d lines over %d' % (os.path.relpath(path, root()), len(long), WIDTH))


def break_lines(crate):
    """Breaks the long lines of the other .antt files of the crate: specs and laws."""
    base = os.path.join(root(), 'crates', crate)
    for path in sorted(glob.glob(os.path.join(base, 'specs', '*.antt')) + glob.glob(os.path.join(base, 'proofs', '*.antt'))):
        before = open(path).read()
        for width in (WIDTH, WIDTH - 8, WIDTH - 16):
            if all(len(l) <= WIDTH for l in open(path).read().split('\n')):
                break
            open(path, 'w').write('\n'.join(x for l in before.split('\n') for x in (lay_other(l, width) if len(l) > WIDTH else [l])))
            done = subprocess.run(['rattle', 'fmt', '--write', path], capture_output=True, text=True)
            if done.returncode:
                open(path, 'w').write(before)
                print('%s: left as it was: %s' % (os.path.relpath(path, root()), (done.stdout + done.stderr).strip()))
                break
        long = [i for i, l in enumerate(open(path).read().split('\n'), 1) if len(l) > WIDTH]
        if long:
            print('%s: over %d: lines %s' % (os.path.relpath(path, root()), WIDTH, ' '.join(map(str, long))))


def run(crate, functions):
    """Rewrites the files; gives the texts from before, with paths for `@`."""
    texts = {f: open(f).read() for f in proof_files(crate, functions)}
    citing = [f for f, text in texts.items() if '@' in re.sub(r'--[^\n]*', '', text)]
    if citing:
        walk = Walk(crate, proof_files(crate, []))
        for f in citing:
            texts[f] = resolved(texts[f], walk.things, os.path.relpath(f, root()))
        walk.close()
    for f, text in texts.items():
        write(f, text)
    return texts


# ---- the check

def check(crate, limit=1800):
    """(proved, [(file, line, column, declaration, message)])."""
    try:
        done = subprocess.run(['rt', 'dev', crate], cwd=root(), capture_output=True, text=True, timeout=limit, env=dict(os.environ, RT_CUT='300'))
    except subprocess.TimeoutExpired:
        return None, []
    said = done.stdout + done.stderr
    errors = [(os.path.abspath(m.group(1)), int(m.group(2)), int(m.group(3)), m.group(4) or m.group(6), m.group(5) or m.group(7))
              for m in re.finditer(r'^(\S+?Proof\.antt):(\d+):(\d+): (?:error: `([^`]*)`: (.*)|unsolved \S+ in `([^`]*)`: (.*))$', said, re.M)]
    return done.returncode == 0, [e for e in errors if 'was not admitted' not in e[4]]


def settle(crate, texts, rounds=6):
    """Checks the crate, and puts the paths of refused answers back into them, where that helps."""
    in_place, wrong = set(), set()
    for _ in range(rounds):
        proved, errors = check(crate)
        if proved:
            return True
        refused = {(f, name) for f, _, _, name, _ in errors if f in texts}
        changed = refused - wrong
        wrong |= refused & in_place
        in_place = (in_place | refused) - wrong
        for f in sorted({f for f, _ in changed}):
            write(f, texts[f], {name for g, name in in_place if g == f})
        if not changed:
            break
    for f, name in sorted(wrong):
        print('%s: %s is refused, with its paths in place too' % (os.path.relpath(f, root()), name))
    return False


# ---- arguments that the checker finds

VALUE = re.compile(r'(?:c|at-[\w-]+)((?: \.[\w-]+)+)')
NO_VALUE = re.compile(r'(?<![\w-])(omega|refl|sym|rw|simp|cc|search|record|let|λ|elim|arith|tt)(?![\w-])|∙|,|\?')


def groups(text, start, end):
    """(from, to, those inside) of each group `( .. )` of text[start:end] that stands in no other."""
    out, stack = [], []
    for i in range(start, end):
        if text[i] == '(':
            stack.append((i, []))
        elif text[i] == ')' and stack:
            i0, inner = stack.pop()
            node = (i0, i + 1, inner)
            (stack[-1][1] if stack else out).append(node)
    return out


def is_argument(text, at):
    before = re.search(r'(\S+) +$|(\S+)\s*\n\s*$', text[max(0, at - 200):at])
    word = before and (before.group(1) or before.group(2))
    return bool(word) and re.search(r'[\w)₀-₉′_-]$', word) is not None and word not in ('in', 'let', 'omega', 'rw', 'simp', 'cc', 'at', 'elim')


def is_value(group):
    paths = [set(m.group(1).replace('.', '').split()) for m in VALUE.finditer(' '.join(group.split()))]
    return bool(paths) and not NO_VALUE.search(group) and not any(p & set(PROOFS) or p == {'before'} for p in paths)


def candidates(text, nodes):
    """The groups to try, as trees: where one is refused, those inside of it are tried."""
    out = []
    for a, b, inner in nodes:
        below = candidates(text, inner)
        if is_value(text[a:b]) and is_argument(text, a):
            out.append((a, b, below))
        else:
            out += below
    return out


class Trial:
    """A file in which some argument groups are `_`."""

    def __init__(self, path):
        self.path, self.text = path, open(path).read()
        self.on, self.within, at = [], [], 0
        for p in re.split(r'(\n{2,})', self.text):
            found = clauses(p) if p.strip() else None
            for c in found or []:
                answer_at = self.text.index(c.answer, at + p.index('\n'.join(c.lines))) if c.answer else at
                if c.binds_c:
                    types = [m.span() for m in re.finditer(r'let [\w′-]+ : .*? = ', self.text[answer_at:answer_at + len(c.answer)], re.S)]
                    for n in candidates(self.text, groups(self.text, answer_at, answer_at + len(c.answer))):
                        if not any(answer_at + x <= n[0] < answer_at + y for x, y in types):
                            self.on.append(n)
                    self.within.append((answer_at, answer_at + len(c.answer), c.name))
            at += len(p)

    def write(self, restore=False):
        """Writes the file; `where` maps line and column of each `_` to its group."""
        out, last, self.where = '', 0, {}
        for n in sorted(self.on) if not restore else []:
            out += self.text[last:n[0]]
            self.where[out.count('\n') + 1, len(out) - out.rfind('\n')] = n
            out += '_'
            last = n[1]
        out += self.text[last:]
        open(self.path, 'w').write(out)
        self.written = out

    def flatten(self):
        """Each answer in which something was put in place on one line, to be laid out afresh."""
        out = []
        for p in paragraphs(open(self.path).read()):
            found = clauses(p)
            changed = {who for a, b, who in self.within if any(a <= n[0] < b for n in self.on)}
            if found and len(found) == 1 and found[0].name in changed and not BARE.search(found[0].answer):
                c = found[0]
                p = '\n'.join([l for l in c.sign if l != MARK] + [c.left + ' = ' + flat(c.answer)])
            out.append(p)
        open(self.path, 'w').write('\n\n'.join(out) + '\n')

    def off(self, nodes):
        for n in nodes:
            if n in self.on:
                self.on.remove(n)
                self.on += n[2]

    def refused(self, line, column, name, undetermined):
        """Takes back what the message is about; says whether there was something."""
        if (line, column) in self.where:
            self.off([self.where[line, column]])
            return True
        in_answer = [n for n in self.on for a, b, who in self.within if who == name and a <= n[0] < b]
        if not in_answer:
            return False
        lines = self.written.split('\n')
        at = sum(len(l) + 1 for l in lines[:line - 1]) + column - 1
        depth, end = 0, at
        while end < len(self.written) and depth >= 0 and not (depth == 0 and self.written[end] == ','):
            depth += (self.written[end] in OPEN) - (self.written[end] in CLOSE)
            end += 1
        near = [n for (l, k), n in self.where.items() if at <= sum(len(x) + 1 for x in lines[:l - 1]) + k - 1 < end and n in in_answer]
        self.off(near if near and undetermined else in_answer)
        return True


def infer(crate, functions, rounds=12):
    if not settle(crate, run(crate, functions)):
        raise SystemExit('proofpoints: `rt dev %s` does not prove the crate as it stands' % crate)
    trials = [t for t in map(Trial, proof_files(crate, functions)) if t.on]
    tried, proved = sum(len(t.on) for t in trials), not trials
    for k in range(rounds):
        for t in trials:
            t.write()
        proved, errors = check(crate)
        if proved or proved is None:
            break
        moved = False
        for f, line, column, name, message in errors:
            for t in trials:
                if f == os.path.abspath(t.path):
                    moved |= t.refused(line, column, name, 'determined' in message)
        print('check %d: %d arguments left open' % (k + 1, sum(len(t.on) for t in trials)), flush=True)
        if not moved:
            break
    if not proved:
        for t in trials:
            t.write(restore=True)
        print('proofpoints: nothing inferred in %s%s' % (crate, ', the check took too long' if proved is None else ''))
        return
    for t in trials:
        t.flatten()
    proved = settle(crate, run(crate, functions))
    print('%s: %d of %d arguments are `_`, %s' % (crate, sum(len(t.on) for t in trials), tried, 'proved' if proved else 'NOT PROVED'))


def show(crate, functions):
    walk = Walk(crate, proof_files(crate, []))
    for f in proof_files(crate, functions):
        text = open(f).read()
        print(os.path.relpath(f, root()))
        for p in paragraphs(text):
            for c in clauses(p) or []:
                if c.need:
                    print('  %s:' % c.name, ' '.join('%s@%d' % x for x in walk.things(text, *c.need).items()))
    walk.close()


if __name__ == '__main__':
    words = [a for a in sys.argv[1:] if not a.startswith('--')]
    if not words:
        raise SystemExit(__doc__)
    if '--infer' in sys.argv:
        infer(words[0], words[1:])
    elif '--things' in sys.argv:
        show(words[0], words[1:])
    elif '--laws' in sys.argv:
        break_lines(words[0])
    elif '--check' in sys.argv:
        print('proved' if settle(words[0], run(words[0], words[1:])) else 'NOT PROVED')
    else:
        run(words[0], words[1:])
