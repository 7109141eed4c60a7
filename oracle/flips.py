#!/usr/bin/env python3
"""oracle/flips.py ARCHIVE PROGRAM FUNCTIONS [COUNT [SEED [ARGUMENT..]]]: how much a comparison notices.

Makes a shared library of ARCHIVE (libcapi.a), builds PROGRAM (a Rust file of oracle/) against it, and runs it with COUNT copies of the library that
differ in one bit of the machine code of the functions whose names match the regular expression FUNCTIONS. A run that fails, stops or takes more
than a minute has noticed. Every flip that was not noticed is printed with the instruction before and after it: many are another spelling of the
same instruction, or in code that no call reaches; the others are holes of the comparison. Needs cc, nm, objdump and rustc."""

import os
import random
import re
import subprocess
import sys
import tempfile


def output(*command):
    return subprocess.run(command, check=True, capture_output=True, text=True).stdout


def code(library, functions):
    """Every byte of the functions' code, by its place in the file, which is its address in a library as small as this."""
    places = []
    for line in output("nm", "-S", library).splitlines():
        fields = line.split()
        if len(fields) == 4 and fields[2] in "tT" and re.search(functions, fields[3]):
            start, size = int(fields[0], 16), int(fields[1], 16)
            places += [(start + k, fields[3]) for k in range(size)]
    return places


def instructions(library):
    return [" ".join(line.split("\t")[::2]) for line in output("objdump", "-d", library).splitlines() if "\t" in line]


def notices(program, folder, arguments):
    try:
        run = subprocess.run([program, *arguments], env={"LD_LIBRARY_PATH": folder}, capture_output=True, timeout=60)
    except subprocess.TimeoutExpired:
        return True
    return run.returncode != 0 or not run.stdout.rstrip().endswith(b" 0 failed")


def main(archive, source, functions, count="100", seed="1", *arguments):
    with tempfile.TemporaryDirectory() as folder:
        library, program = os.path.join(folder, "libcapi.so"), os.path.join(folder, "program")
        output("cc", "-shared", "-o", library, "-Wl,--whole-archive", archive, "-Wl,--no-whole-archive")
        output("rustc", "-O", "--edition", "2024", "-o", program, source, "-L", "native=" + folder, "-l", "dylib=capi")
        if notices(program, folder, arguments):
            sys.exit("the archive itself fails")
        whole, sound = open(library, "rb").read(), instructions(library)
        places, pick, missed = code(library, functions), random.Random(int(seed)), 0
        for _ in range(int(count)):
            (place, name), bit = pick.choice(places), pick.randrange(8)
            flipped = bytearray(whole)
            flipped[place] ^= 1 << bit
            open(library, "wb").write(flipped)
            if not notices(program, folder, arguments):
                missed += 1
                other = instructions(library)
                was, now = [a for a in sound if a not in set(other)][:1], [b for b in other if b not in sound][:1]
                print(f"not noticed: {name}, place {place:#x}, bit {bit}: {was} became {now}")
        print(f"{int(count) - missed} of {count} flips noticed")


if __name__ == "__main__":
    if len(sys.argv) < 4:
        sys.exit(__doc__)
    main(*sys.argv[1:])
