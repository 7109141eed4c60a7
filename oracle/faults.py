#!/usr/bin/env python3
"""oracle/faults.py ARCHIVE FOLDER [run]: copies of libcapi.a with one constant of the machine code changed (x86-64), for seeing that the runs notice.

Writes FOLDER/NAME.a for each fault. A constant may stand in the code several times, all of them are changed; a fault whose constant is not
found is said so, and then the compiler has made other code of it. With `run` the comparison with the exact model is made with each copy, and
the runs that noticed are printed; a fault of NOTICED that no run notices is a failure, and so is one of EQUAL that one does, and one of BESIDE that
its program (oracle/program) does not notice.
"""
import pathlib
import re
import subprocess
import sys

# tens::prefix: the divisor, its negative and its double modulo 2^64, and the reciprocal of its upper half times 2^95
DIVISOR = 14901161193847656250
NEGATIVE = 2**64 - DIVISOR
DOUBLE = 2 * DIVISOR - 2**64
RECIPROCAL = 0x9E74D1B84CEFF5A5


def word(constant, by):
    """A constant of 64 bits, changed by so much."""
    return [(constant.to_bytes(8, "little"), (constant + by).to_bytes(8, "little"))]


# name: the bytes as they stand, and as they are put
NOTICED = {
    "divisor": word(DIVISOR, 2**40),
    "divisor_less": word(DIVISOR, -1),
    "divisor_64": word(DIVISOR, 64),
    "double_64": word(DOUBLE, 64),
    "reciprocal": word(RECIPROCAL, 1),
    "reciprocal_less": word(RECIPROCAL, -(2**30)),
    "power_of_ten": word(5**18, 1),  # its fives
    # cmp $imm32,%rsi: the first length that is too long
    "limit": [(b"\x48\x81\xfe" + (4097).to_bytes(4, "little"), b"\x48\x81\xfe" + (4096).to_bytes(4, "little"))],
    # cmp $imm8,%r11b: an underscore
    "underscore": [(b"\x41\x80\xfb\x5f", b"\x41\x80\xfb\x60")],
    # cmp $imm8,%r14b: the digit 9
    "nine": [(b"\x41\x80\xfe\x39", b"\x41\x80\xfe\x38")],
}

# changes that change no answer; oracle/README.md says why
EQUAL = {
    "divisor_1": word(DIVISOR, 1),
    "divisor_63": word(DIVISOR, 63),
    "negative_1": word(NEGATIVE, 1),
    "double_1": word(DOUBLE, 1),
    "double_63": word(DOUBLE, 63),
    "reciprocal_2_20": word(RECIPROCAL, -(2**20)),
    "reciprocal_2_29": word(RECIPROCAL, -(2**29)),
}

# faults for the programs beside: the program that must notice, and the change
BESIDE = {
    # mov $31,%eax: the refusal of a zero divisor
    "zero_divisor": ("arith", [(b"\xb8\x1f\x00\x00\x00", b"\xb8\x1e\x00\x00\x00")]),
    # the reciprocal of 10 times 2^67
    "tenth": ("decimal", word(0xCCCCCCCCCCCCCCCD, 1)),
    # setne beside sete, of a clip byte in its place
    "clip": ("filter", [(b"\x42\x0f\x95\x04\x28", b"\x42\x0f\x94\x04\x28")]),
    # cmp $0x7fff,%rcx: the highest sample, to which the one below it is held too
    "highest": ("filter", [(b"\x48\x81\xf9\xff\x7f\x00\x00", b"\x48\x81\xf9\xfe\x7f\x00\x00")]),
    # bt $15,%eax before adc: whether the whole part is odd; adc $16383,%rax: half a step less one; in the headroom check %r11 and %r8
    "even": ("filter", [(b"\x0f\xba\xe0\x0f\x48\x15", b"\x0f\xba\xe0\x10\x48\x15")]),
    "half": ("filter", [(b"\x48\x15\xff\x3f\x00\x00", b"\x48\x15\xfe\x3f\x00\x00")]),
    "half_of_peaks": ("filter", [(b"\x49\x81\xd3\xff\x3f\x00\x00", b"\x49\x81\xd3\xfe\x3f\x00\x00"), (b"\x49\x81\xd0\xff\x3f\x00\x00", b"\x49\x81\xd0\xfe\x3f\x00\x00")]),
    # mov $63,%ebp: the place before the line, once it is taken back to the window's end
    "gap": ("filter", [(b"\xbd\x3f\x00\x00\x00", b"\xbd\x3e\x00\x00\x00")]),
}
ALL = NOTICED | EQUAL | {name: changes for name, (_, changes) in BESIDE.items()}


def write(archive, target, name, changes):
    """The copy with the fault, or None where the constant does not stand in the archive."""
    code = pathlib.Path(archive).read_bytes()
    changed = code
    for old, new in changes:
        changed = changed.replace(old, new)
    if changed == code:
        print(f"{name}: the constant does not stand in {archive}; nothing is written")
        return None
    copy = target / f"{name}.a"
    copy.write_bytes(changed)
    print(f"{name}: {sum(code.count(old) for old, _ in changes)} places changed", flush=True)
    return copy


def said(*command):
    """What a command prints, where it closes with its counts."""
    told = subprocess.run(command, capture_output=True, text=True, check=False).stdout
    return told if re.search(r"^\d+ passed, \d+ failed$", told, re.M) else "broke off: 1 texts, 1 answers compared, 1 failed\n0 passed, 1 failed"


def noticed(name, copy):
    """The runs that fail with this copy, each with its failed answers."""
    here = pathlib.Path(__file__).parent
    if name in BESIDE:
        program = BESIDE[name][0]
        failed = re.search(r"(\d+) failed$", said(here / "program", program, "--port", copy).strip())[1]
        return [f"oracle/program {program} {int(failed):,}"] if failed != "0" else []
    told = said(here / "run", "-", "--port", copy, "--longest", "4", "all")
    counts = re.findall(r"^([\w ]+): \d+ texts, \d+ answers compared, (\d+) failed", told, re.M)
    return [f"{run} {int(failed):,}" for run, failed in counts if failed != "0"]


def main(archive, folder, *run):
    target = pathlib.Path(folder)
    target.mkdir(parents=True, exist_ok=True)
    wrong = 0
    for name, changes in ALL.items():
        copy = write(archive, target, name, changes)
        if copy is None:
            wrong += 1
        elif run:
            found = noticed(name, copy)
            print(f"  {', '.join(found) or 'no run'}", flush=True)
            wrong += bool(found) == (name in EQUAL)
    if run:
        print(f"{len(ALL) - wrong} passed, {wrong} failed")
    return wrong > 0


if __name__ == "__main__":
    if len(sys.argv) not in (3, 4) or sys.argv[3:] not in ([], ["run"]):
        sys.exit(__doc__)
    sys.exit(main(*sys.argv[1:]))
