#!/usr/bin/env python3
"""docs/cost.py NAME: where the check of a crate spends its seconds, by kind of module, by file of specs/ and by function.

Run `rt check`, `rm -rf out/incremental/*` and `rt check --jobs 1` in crates/NAME before: the prover saves each module there as it is done with it, so the time between
two files is what the later one took. (Without the first check the last would begin with what another copy of the repository keeps.)
"""
import collections
import pathlib
import sys

LONGEST = 12


def modules(folder):
    """The saved modules with their seconds, in the order of the run."""
    files = [f for f in folder.glob('*/*.oantt') if not f.parent.name.endswith('-offers')]
    if not files:
        sys.exit(f'{folder} has no saved module\n{__doc__}')
    files.sort(key=lambda f: f.stat().st_mtime_ns)
    before = files[0].stat().st_mtime_ns
    for f in files:
        at = f.stat().st_mtime_ns
        yield f.stem, (at - before) / 1e9
        before = at


def main():
    if len(sys.argv) != 2:
        sys.exit(__doc__)
    name = sys.argv[1]
    kinds, specs, functions = collections.Counter(), collections.Counter(), collections.Counter()
    for module, seconds in modules(pathlib.Path('crates') / name / 'out/incremental'):
        library, _, path = module.partition('.')
        parts = path.split('.') if path else []
        if library == f'Rattle-{name}-specs' and parts:
            kinds['specs/'] += seconds
            specs['.'.join(parts)] += seconds
        elif library == f'Rattle-{name}-proofs' and parts:
            made = parts[-1] if parts[-1][0].isupper() else 'contract'
            kinds[made] += seconds
            functions['::'.join(p for p in parts if not p[0].isupper()) or parts[-1]] += seconds
        else:
            kinds['the rest'] += seconds
    for title, counts in ('kind', kinds), ('file of specs/', specs), ('function', functions):
        print(f'{title}: {sum(counts.values()):.1f} s')
        for key, seconds in counts.most_common(LONGEST):
            print(f'  {seconds:6.2f}  {key}')


main()
