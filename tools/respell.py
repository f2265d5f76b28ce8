#!/usr/bin/env python3
"""usage: tools/respell.py [--dry]     at the top of the repository, once, right after the kit's port.py

Brings the definitions and lemmas of this repository to today's spelling: words in snake case, a prime as an apostrophe.
It renames what specs/ and proofs/ declare, wherever it stands: in .antt files, in clauses of .rt files, in edits, and in
the pages where it stands between backquotes. Functions, exported names, strings, inputs and outputs keep their names.
It stops where two names would fall together in one file.
"""
import glob
import os
import re
import sys

TOKEN = re.compile(r"[A-Za-z_\u0370-\u03ff][\w'\u2032\-]*")
DECLARES = re.compile(r"^\s*(?:(?:abbrev|pub|unfoldable)\s+)*((?:[^\s():={}\[\]]+\s+)+):(?:\s|$)")
NAMED = re.compile(r"^\s*(?:pub\s+)?(?:data|record|ruleset)\s+(\S+)")
KEYWORDS = {'let', 'use', 'where', 'elim', 'record', 'data', 'abbrev', 'pub', 'unfoldable', 'unfolding', 'module', 'open', 'in', 'λ', 'mod'}

# Fields of different records may share a spelling.
MAY_SHARE = {'job_count', 'cell_count'}

# Names that would fall together with another one, and what they are called instead: a lemma gets _lem.
OTHERWISE = {
    'with-bit': 'with_bit_lem',
    'bit-and': 'bit_and_lem',
    'bit-or': 'bit_or_lem',
    'no-report': 'no_report_lem',
    'goes_before': 'goes_before_lem',
    'silent-refusal': 'silent_refusal_lem',
    'first-stored': 'first_stored_lem',
    'change-for': 'change_for_lem',
    'first-of': 'first_of_lem',
    'fault-lines': 'fault_lines_lem',
    'value-below': 'value_below_lem',
    'cell-at': 'cell_at_lem',
    'asked-job': 'asked_job_lem',
    'asked-cell': 'asked_cell_lem',
    'blank-job': 'blank_job_lem',
    'inserts-first': 'inserts_first_lem',
    'guess-counted': 'is_guess_counted',
    'own-counted': 'is_own_counted',
    'never-started': 'is_never_started',
    'struck-out': 'is_struck_out',
    'is-ready': 'is_ready_lem',
    'insert-state': 'insert_state_lem',
    'commit-state': 'commit_state_lem',
    'handed-by': 'handed_by_lem',
    'value-at': 'value_at_lem',
    'bypass-given': 'bypass_given_lem',
}


# Names that port.py turned, because a library had the same spelling: pages and edits follow.
TURNED = '''
abs-diff abs-neg add-at add-spec after-is after-last after-line after-next after-none agrees-after all-append all-in
all-room all-seen all-settled all-stay all-told and-left and-right any-found any-none any-same any-swap as-many
at-most at-once at-place at-places at-source back-more back-none back-one before-same below-length below-more
below-or best-none bit-shifted by-rank bytes-fit call-none call-stays callOf cellAt cells-same cells-stay cellsOf
choose-spec copy-more count-none count-same count-spec countOf counted-same cut-spec digits-more distance-most
each-in each-same earlier-more enum-told eqb-comm fieldOf fill-more fill-none filled-more filled-none first-alike
first-piece first-small firstOf fold-more fold-same foundAt four-same from-place from-zero goes-before goes-on
held-in held-then heldAt in-held in-place in-use is-below is-made is-same is-zero isOver isSome job-is jobOf
kept-and keptAt last-step left-after left-in lineOf linesRead look-none made-as max-none mayWrite met-at
minus-one-is named-step namesAt negative-fits new-in new-spec next-fits next-low next-of nextOf no-lines no-lower
no-read no-start noRun none-allowed none-before none-here none-named none-runs none-spec noted-more notedIn
number-at number-in number-is of-spec of-two one-batch one-field one-left one-less one-more one-of one-piece
one-place one-writes only-above open-is open-spec openAt openIn or-left or-right orElse originOf otherOf out-at
over-by over-last own-is own-open own-out own-value pairOf past-after past-fits past-words pick-is pick-more
pick-same place-of plain-here planOf put-next put-spec put-then rank-is rank-same rankAt rankOf read-next
record-same refusal-is replicate-next resultOf run-fits run-in run-spec runAt same-at same-bits same-end same-from
same-in same-left same-length same-parts same-place same-self same-size same-source same-text second-alike
set-agrees set-more set-out set-same set-words settled-same seven-is shapeOf shareOf shift-fits signedOf size-none
sizeOf some-is source-in sourceFor sourceOf stateOf step-in step-line step-small step-spec step-then stepOf
still-marked stopAt stored-at stored-is stored-more stored-same storedAt sum-fits sum-over sumOf tableOf taken-is
tallyOf to-start told-is told-none told-same top-in totalOf turn-at turn-spec two-fields upTo update-other
update-same usable-at valid-same value-grows valueAt valueOf waitsFor walk-end walk-start walk-step walked-at
whole-length withNext withTurn word-fits word-next wordOf write-keeps writesAt zero-is
'''.split()


def files(*patterns):
    for pattern in patterns:
        yield from sorted(p for p in glob.glob(pattern, recursive=True) if '/out/' not in p)


def read(path):
    with open(path, encoding='utf-8') as file:
        return file.read()


def respelled(name):
    """A name as it is spelled today: a type keeps its capital."""
    if name in OTHERWISE:
        return OTHERWISE[name]
    new = name.replace('\u2032', "'")
    if re.match(r'[a-z\u0370-\u03ff]', new):
        new = re.sub(r'([a-z0-9])([A-Z])', lambda m: m.group(1) + '_' + m.group(2).lower(), new)
        new = new.replace('-', '_')
        if re.search('[A-Z]', new):
            new = re.sub(r'[A-Z]+', lambda m: m.group().lower(), new)
    return new


def declared(text):
    for line in text.split('\n'):
        if line.lstrip().startswith('--'):
            continue
        found = NAMED.match(line)
        if found:
            yield found.group(1)
            continue
        found = DECLARES.match(line)
        if found:
            names = found.group(1).split()
            if names[0] not in KEYWORDS:
                yield from (name for name in names if TOKEN.fullmatch(name))


def renamings():
    names = set()
    for path in files('crates/*/specs/**/*.antt', 'crates/*/proofs/**/*.antt'):
        text = read(path)
        made = {line.split(' : ')[0].split()[-1] for line in text.split('\n') if re.search(r' : tie\.', line)}
        names.update(name for name in declared(text) if name not in made)
    return {name: respelled(name) for name in names if respelled(name) != name}


def turn_antt(text, names):
    def line(text):
        code, dashes, comment = split_comment(text)
        return TOKEN.sub(lambda m: names.get(m.group(), m.group()), code) + dashes + turn_prose(comment, names)
    return '\n'.join(line(l) for l in text.split('\n'))


def split_comment(line):
    found = re.search(r'(^|\s)--(\s|$)', line)
    if not found:
        return line, '', ''
    at = found.start() + len(found.group(1))
    return line[:at], line[at:at + 2], line[at + 2:]


def turn_prose(text, names):
    """In prose a name in camel case is a definition's; one with dashes only between backquotes."""
    text = re.sub(r'`[^`\n]+`', lambda q: TOKEN.sub(lambda m: names.get(m.group(), m.group()), q.group()), text)
    return re.sub(r"\b[a-z]+[A-Z]\w*", lambda m: names.get(m.group(), m.group()), text)


def turn_source(text, names):
    """A .rt file: clauses and imports; comments as prose; strings as they are."""
    parts = re.split(r'(//[^\n]*|b?"(?:\\.|[^"\\])*")', text)
    out = []
    for part in parts:
        if part.startswith('//'):
            out.append(turn_prose(part, names))
        elif re.match(r'b?"', part):
            out.append(part)
        else:
            out.append(TOKEN.sub(lambda m: names.get(m.group(), m.group()), part))
    return ''.join(out)


def turn_edit(text, names):
    out = []
    for line in text.split('\n'):
        if re.match(r'(old|new):', line):
            out.append(line[:4] + TOKEN.sub(lambda m: names.get(m.group(), m.group()), line[4:]))
        else:
            out.append(turn_prose(line, names) if not line.startswith('file:') else line)
    return '\n'.join(out)


def fallen_together(names):
    bad = []
    for path in files('crates/*/specs/**/*.antt', 'crates/*/proofs/**/*.antt', 'crates/*/src/**/*.rt'):
        code = '\n'.join(split_comment(l)[0] for l in read(path).split('\n')) if path.endswith('.antt') else re.sub(r'//[^\n]*|b?"(?:\\.|[^"\\])*"', '', read(path))
        tokens = set(TOKEN.findall(code))
        back = {}
        for token in tokens:
            back.setdefault(names.get(token, token), set()).add(token)
        # a function may be called as the definition that its contract cites; a parameter would hide it
        hides = set(re.findall(r'(?:[(,]|\blet)\s*(?:mut )?(\w+)\b(?:: | =|,|\))', code))
        fine = MAY_SHARE | ({new for new in back if new not in hides} if path.endswith('.rt') else set())
        if path.endswith('Proof.antt'):
            continue
        bad += [(path, new, sorted(olds)) for new, olds in back.items() if len(olds) > 1 and new not in fine]
    return bad


def main(words):
    names = renamings()
    bad = fallen_together(names)
    for path, new, olds in bad:
        print('%s: %s would all be %s' % (path, ', '.join(olds), new))
    if '--names' in words:
        for old, new in sorted(names.items()):
            print(old, new)
    if '--dry' in words:
        print(len(names), 'names')
        return 1 if bad else 0
    if bad:
        return 1
    turned = 0
    everywhere = {name: respelled(name) for name in TURNED if respelled(name) != name} | names
    for path, turn in [(p, turn_antt) for p in files('crates/*/specs/**/*.antt', 'crates/*/proofs/**/*.antt')] + [(p, turn_source) for p in files('crates/*/src/**/*.rt')] + [(p, turn_edit) for p in files('crates/*/*/*.edit')] + [(p, turn_prose) for p in files('*.md', 'docs/*.md', '*/README.md', 'host/**/*.md')]:
        old = read(path)
        new = turn(old, everywhere if turn in (turn_edit, turn_prose) else names)
        if new != old:
            turned += 1
            with open(path, 'w', encoding='utf-8') as file:
                file.write(new)
    print(len(names), 'names,', turned, 'files')
    return 0


if __name__ == '__main__':
    sys.exit(main(sys.argv[1:]))
