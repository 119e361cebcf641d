#!/usr/bin/env python3
"""unfold.py: prints the `use` lines and the `unfolding` list by which a theorem evaluates the definition by `refl`: every `unfoldable`
definition of plane and reference, and binary64's operations. Run in the repository's root."""
import glob
import os
import re

FLOAT = 'lib.Ieee'
IEEE = 'of_int sub mul div neg to_signed eq lt le'.split()
SKIP = {'Lib', 'Found', 'Drawings', 'Refusals', 'Examples', 'Exported'}


def lists():
    uses, names = [], []
    for owner in ('plane', 'reference'):
        for f in sorted(glob.glob(f'crates/{owner}/specs/*.antt')):
            module = os.path.basename(f)[:-5]
            found = re.findall(r'^\s*unfoldable pub (\S+)', open(f).read(), re.M)
            if module in SKIP or not found:
                continue
            uses.append(f'use Rattle.{owner}.specs.{module}.{{{", ".join(found)}}}')
            names += found
    uses.append(f'use {FLOAT}.{{{", ".join(IEEE)}}}')
    return uses, names + [f'{FLOAT}.add'] + IEEE


if __name__ == '__main__':
    uses, names = lists()
    print('\n'.join(uses))
    print('unfolding ' + ' '.join(names))
