#!/usr/bin/env python3
"""Makes the files of crates/list_cases/data and what is to be printed of each: crates/list_cases/stdout.

That is the answer of `read_list` (number, values, line and inner answer), then every place of the list and of the taps,
written or not (line, raw and answer of the entry, and the tap), by document 01's words and not by the code: the value
lines, their raws by exact fractions and the table of refused lines are those of fit_cases.py.
Run it from the repository's root: oracle/list_cases.py
"""
from fit_cases import REFUSED, raw, value_lines, written

PLACES = 8
MARK = (9999, -9999, 99)
TAP = -777


def answered(values, data):
    """01's order of refusals; then the first refused line, or how many values there are."""
    faults = ((4, len(data) > 16384), (41, len(values) > 64), (5, len(values) > PLACES), (40, not values))
    for number, is_fault in faults:
        if is_fault:
            return f"answer {number} 0 0 0", False, False
    for number, line in values:
        if line in REFUSED:
            return f"answer 42 0 {number} {REFUSED[line][0]}", True, False
    return f"answer 0 {len(values)} 0 0", True, True


def said(data):
    values = value_lines(data)
    answer, is_listed, is_kept = answered(values, data)
    entries = [(n, 0, REFUSED[line][0]) if line in REFUSED else (n, raw(line), 0) for n, line in values]
    listed = entries if is_listed else []
    kept = [entry[1] for entry in entries] if is_kept else []
    places = zip(listed + [MARK] * (PLACES - len(listed)), kept + [TAP] * (PLACES - len(kept)))
    return [answer] + [f"line {n} {r} {a} {tap}" for (n, r, a), tap in places]


FILES = {
    "done.txt": "# right ear\n0.5\n\n-0.25\n0x0.08\n1e-3\n-1\n",
    "no_final_lf.txt": "0.1\n-0.2\n0.3\n-0.4\n0.5\n-0.6\n0.7\n-0.8",
    "refused.txt": "0.5\n0,25\n# a half\n1\n-0.25\n\n1e\n0x0.8\n",
    "nine.txt": "0.1\n" * 8 + "half\n",
    "empty.txt": "",
}

if __name__ == "__main__":
    written("crates/list_cases", FILES, said, [])
