#!/usr/bin/env python3
"""Respells the repository's own definitions and lemmas from words joined by hyphens to words joined by underscores.

Run once at the top of the repository, after the toolchain's script that turns an older repository. It goes by tokens:
- in specs/ and in the lemma files of proofs/ every name with a hyphen, but for those imported from the toolchain;
- in the proof of a function (proofs/F/) the names defined in those files and the names that a proof binds itself, but not the
  names that the check makes of the function's code: they stand behind `goal.`, or as a member of the record that a proof is
  given (`c.`, `w.`, `l.`);
- in .rt files, outside comments and strings, the same names.
It stops, and writes nothing, where two names of a file would fall together.
"""
import glob
import os
import re
import sys

TOKEN = re.compile(r"(?<![\w'◌-])[A-Za-z_][\w']*(?:-[\w']+)+(?![\w'◌-])")
CRATES = {os.path.basename(c) for c in glob.glob('crates/*')}
SPECS = sorted(glob.glob('crates/*/specs/**/*.antt', recursive=True))
LEMMAS = sorted(f for f in glob.glob('crates/*/proofs/*.antt'))
PROOFS = sorted(set(glob.glob('crates/*/proofs/**/*.antt', recursive=True)) - set(LEMMAS))
SOURCES = sorted(glob.glob('crates/*/src/**/*.rt', recursive=True))


def read(path):
    with open(path, encoding='utf-8') as f:
        return f.read()


def imported():
    """Names with a hyphen that come from the toolchain."""
    names = set()
    for path in SPECS + LEMMAS + PROOFS + SOURCES:
        for m in re.finditer(r'use ([\w.+]+)\.\{([^}]*)\}', read(path)):
            parts = m.group(1).split('.')
            own = parts[0] == 'Rattle' and parts[1] in CRATES
            if not own:
                for item in m.group(2).split(','):
                    names.add(item.strip().split(' as ')[0])
    return names


def uncommented(text):
    return re.sub(r'--.*', '', text)


# Definitions and lemmas whose name would be that of a function in the file that speaks of them.
APART = {
    'calls-together': 'judged_and_turned',
    'leaf-kind': 'kind_of_leaf',
    'node-kind': 'kind_of_node',
    'tower-leaf': 'tower_of_leaf',
    'tower-node': 'tower_of_node',
    'pair-node': 'pair_of_node',
}


def new(name):
    return APART.get(name, name.replace('-', '_'))


def turn(text, path, wanted):
    """The text with each wanted token respelled; `wanted` says it of a name and of what stands before it."""
    before = {t for t in re.findall(r"[\w']+", text)}
    seen = {}

    def one(m):
        name = m.group(0)
        if not wanted(name, text[:m.start()]):
            return name
        seen[name] = new(name)
        return new(name)

    out = TOKEN.sub(one, text)
    for old, fresh in seen.items():
        if fresh in before:
            CLASHES.append(f'{path}: {old} falls together with {fresh}')
    return out


CLASHES = []
KIT = imported()
OWN = set()
for f in SPECS + LEMMAS:
    OWN |= {n for n in TOKEN.findall(uncommented(read(f))) if n not in KIT}


def in_comment(before):
    line = before[before.rfind('\n') + 1:]
    return '--' in line and line[line.index('--'):].count('`') % 2 == 0


def lemma_name(name, before):
    return name in OWN and not in_comment(before)


def proof_name(made, bound):
    def wanted(name, before):
        if in_comment(before) or before.endswith('goal.') or name in made:
            return False
        if re.search(r"(?<![\w'.])[cwl]\.$", before):
            return False
        return name in OWN or name in bound
    return wanted


def masked(text):
    """Where comments and strings stand in a .rt file."""
    hidden = [False] * len(text)
    for m in re.finditer(r'//[^\n]*|"(?:\\.|[^"\\])*"|\'(?:\\.|[^\'\\])\'', text):
        for i in range(m.start(), m.end()):
            hidden[i] = True
    return hidden


def main():
    out = {}
    for f in SPECS + LEMMAS:
        out[f] = turn(read(f), f, lemma_name)
    for f in PROOFS:
        text = read(f)
        made = set(re.findall(r'goal\.([\w\'-]+)', text))
        for m in re.finditer(r'\.Goals\.\{([^}]*)\}', text):
            made |= {x.strip() for x in m.group(1).split(',')}
        bound = set(re.findall(r"(?:let|in|λ|,) ([\w'-]+)(?= (?::|=) )", text)) - made
        out[f] = turn(text, f, proof_name(made, {b for b in bound if '-' in b}))
    for f in SOURCES:
        text = read(f)
        hidden = masked(text)
        out[f] = turn(text, f, lambda name, before: name in OWN and not hidden[len(before)])
    if CLASHES:
        print('\n'.join(CLASHES))
        sys.exit(1)
    changed = 0
    for f, text in out.items():
        if text != read(f):
            changed += 1
            with open(f, 'w', encoding='utf-8') as h:
                h.write(text)
    print(f'{len(OWN)} names, {changed} files')


main()
