#!/usr/bin/env python3
"""Respells, in the proofs of functions, the names that the check makes of a function's code.

Such a name now keeps the underscores of the names in the code that it is made of: `number-at-requires` is
`number_at-requires`. Run at the top of the repository, with names of crates or for all. What the code's names are is read off
the crate's sources.
"""
import glob
import os
import re
import sys

TOKEN = re.compile(r"(?<![\w'◌-])[A-Za-z_][\w']*(?:-[\w']+)+(?![\w'◌])")
MADE = {
    'type_inv', 'in_default', 'in_ok', 'in_err', 'well_formed', 'shared_slice_known', 'slice_known', 'items_fit', 'struct_known',
    'overflow_add', 'overflow_sub', 'overflow_mul', 'overflow_cast', 'slice_bounds', 'offset_bounds',
}


def read(path):
    with open(path, encoding='utf-8') as f:
        return f.read()


def uncommented(text):
    return re.sub(r'//[^\n]*', '', text)


def imported(text):
    names = set()
    for m in re.finditer(r'use ([\w.+]+)\.\{([^}]*)\}', text):
        if not m.group(1).endswith('.Goals'):
            names |= {x.strip() for x in m.group(2).split(',')}
    return names


def main():
    crates = sys.argv[1:] or [os.path.basename(c) for c in sorted(glob.glob('crates/*'))]
    for crate in crates:
        known = set(MADE)
        for f in glob.glob(f'crates/{crate}/src/**/*.rt', recursive=True):
            known |= {w for w in re.findall(r'[A-Za-z]\w*', uncommented(read(f))) if '_' in w.strip('_')}
        joined = sorted(((k.replace('_', '-'), k) for k in known), key=lambda x: -len(x[0]))
        for f in glob.glob(f'crates/{crate}/proofs/**/*.antt', recursive=True):
            # a lemma file, right in proofs/
            if f.count('/') < 4:
                continue
            text = read(f)
            kit = imported(text)

            def one(m):
                name = m.group(0)
                if name in kit:
                    return name
                for old, fresh in joined:
                    name = re.sub(r'(?<![\w])' + re.escape(old) + r'(?![\w])', fresh, name)
                return name

            out = TOKEN.sub(one, text)
            if out != text:
                with open(f, 'w', encoding='utf-8') as h:
                    h.write(out)
                print(f)


main()
