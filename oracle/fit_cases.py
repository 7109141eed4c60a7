#!/usr/bin/env python3
"""Makes the files of crates/fit_cases/data and what `fit` is to print of each: crates/fit_cases/stdout.

The taps, the verdict, the samples and the sum are computed here with exact fractions, by document 01's words and not by the code.
The answers of refused lines stand in a table below, from docs/GRAMMAR.md. Run it from the repository's root: oracle/fit_cases.py
"""
from fractions import Fraction
import os

FOLDER = "crates/fit_cases"
LOW, HIGH = -32768, 32767

MEANING = {
    4: "the line is above 4096 bytes", 10: "the number is outside the range", 11: "there are no digits",
    12: "the sign has no place there", 13: "a byte is no digit", 14: "an underscore has no place there",
    15: "there is more than one point", 16: "a byte of the exponent is no digit", 17: "the exponent has no digits",
    18: "there is more than one exponent", 19: "the exponent is out of range",
}
NUMBER = "a number such as 0.5, -0.25, 1e-3 or 0x0.8"
BLANKS = "the number alone, without blanks; a comment has a line of its own that starts with #"
CR = "the line without the CR at its end; save the file with LF line ends"
# text of a refused line: its answer, and what to write instead
REFUSED = {
    "0,25": (13, "a point, not a comma: 0.5"), "+0.5": (12, "the number without +"),
    "1": (10, "a number from -1 to 0.999969482421875, the range of I1F15"), " 0.5": (13, BLANKS), "0.5 # half": (13, BLANKS),
    "0.5#half": (13, "the number alone; a comment has a line of its own that starts with #"),
    "-": (11, "a number such as 0.5, or # first for a comment"), "0x-1": (12, "a single - in front of the number, or no sign"),
    "0.1.2": (15, "one point only"), "_1": (14, "digits without underscores, or underscores between digits only"),
    "1e": (17, NUMBER), "1e1e1": (18, NUMBER), "1e1x": (16, NUMBER), "1e2147483648": (19, "an exponent from -2147483648 to 2147483647"),
    "half": (13, NUMBER), "0.5\\": (13, NUMBER), "0.5\0": (13, NUMBER), "0.5\r": (13, CR), "-0.25\r": (13, CR), "\r": (13, CR),
    "0" * 4097: (4, "one number with fewer digits"),
}


def raw(text):
    """The raw of an accepted line: 2^15 times the number, to the nearest, ties to even."""
    sign, body = (-1, text[1:]) if text.startswith("-") else (1, text)
    body = body.replace("_", "")
    if body.startswith("0x"):
        whole, _, fraction = body[2:].partition(".")
        number = Fraction(int(whole + fraction, 16), 16 ** len(fraction))
    else:
        number = Fraction(body)
    steps = sign * round(number * 2**15)
    assert LOW <= steps <= HIGH, text
    return steps


def exact(number):
    """A fraction over a power of two as a decimal, exactly."""
    sign, number = ("-", -number) if number < 0 else ("", number)
    whole, rest = divmod(number, 1)
    digits = ""
    while rest:
        digit, rest = divmod(rest * 10, 1)
        digits += str(digit)
    return sign + str(whole) + ("." + digits if digits else "")


def level(steps):
    return exact(Fraction(steps, 2**15))


def verdict(taps):
    """The highest and the lowest sum, each from the end of the range that drives its term furthest that way."""
    high = [0 if t == 0 else (HIGH if t > 0 else LOW) for t in taps]
    low = [0 if t == 0 else (LOW if t > 0 else HIGH) for t in taps]
    for number, words, samples in ((1, "some samples clip high", high), (2, "no samples clip high, some clip low", low)):
        total = sum(t * s for t, s in zip(taps, samples))
        if not LOW <= round(Fraction(total, 2**15)) <= HIGH and (total > 0) == (number == 1):
            yield f"verdict {number}: {words}"
            yield from (f"sample {i}: {level(s)}" for i, s in enumerate(samples, 1))
            yield f"sum: {exact(Fraction(total, 2**30))}"
            return
    yield "verdict 0: no samples clip"


def quoted(text):
    shown = "".join(c if 32 <= ord(c) <= 126 and c != "\\" else f"\\x{ord(c):02x}" for c in text[:80])
    return shown + (".." if len(text) > 80 else "")


def refused(values):
    yield "refused 42: these lines are not numbers of the format"
    for number, text in values:
        if text in REFUSED:
            answer, instead = REFUSED[text]
            yield from (f"line {number}: {quoted(text)}", f"answer {answer}: {MEANING[answer]}", f"write: {instead}")
    yield "refused"


def value_lines(data):
    """The number and the text of each value line."""
    return [(n, line) for n, line in enumerate(data.decode("latin-1").split("\n"), 1) if line and not line.startswith("#")]


def report(data):
    values = value_lines(data)
    if len(data) > 16384:
        return ["refused 4: the file is above 16384 bytes; give a fitting file, or take out comments", "refused"]
    if len(values) > 64:
        return ["refused 41: the file holds more than 64 values; give a fitting file of at most 64 taps, one on a line", "refused"]
    if not values:
        return ["refused 40: the file holds no value; write one number on a line, such as 0.5", "refused"]
    if any(line in REFUSED for _, line in values):
        return list(refused(values))
    taps = [raw(line) for _, line in values]
    lines = [f"tap {i} line {n}: {level(t)}" for i, ((n, _), t) in enumerate(zip(values, taps), 1)]
    return lines + list(verdict(taps)) + ["ok"]


FILES = {
    "good.txt": "# feedback path, right ear\n0.5\n-0.25\n\n0.125\n0x0.08\n1e-3\n-0\n0.000_015_258_789_062_5\n",
    "no_final_lf.txt": "0.5\n-0.5",
    "clips_high.txt": "-1\n",
    "just_clips.txt": "0.999969482421875\n0.00006103515625\n",
    "just_fits.txt": "0.500030517578125\n-0.499969482421875\n",
    "sixty_four.txt": "".join(f"{'-' if i % 3 == 0 else ''}0.0{i:02}\n" for i in range(1, 65)),
    "16384_bytes.txt": "#" * 16378 + "\n0.25\n",
    "16385_bytes.txt": "#" * 16379 + "\n0.25\n",
    "sixty_five.txt": "0.01\n" * 64 + "half\n",
    "empty.txt": "",
    "comments.txt": "# nothing\n\n#0.5\n",
    "crlf.txt": "0.5\r\n-0.25\r\n\r\n",
    "nul.txt": "0.25\n0.5\0\n",
    "long_line.txt": "0.25\n" + "0" * 4097 + "\n0.5\n",
    "refused.txt": "".join(t + "\n" for t in REFUSED if len(t) < 100 and "\r" not in t and "\0" not in t) + "0.5\n",
}
UNREAD = {
    "missing.txt": "no file: missing.txt cannot be opened; check its name and that it may be read",
    ".": "no file: . cannot be read; give a file, not a directory",
    "": "no file:  cannot be opened; check its name and that it may be read",
}


def written(folder, files, said, more):
    """Writes the files into the folder's data, and what is said of them, and more, into its stdout."""
    os.makedirs(folder + "/data", exist_ok=True)
    out = []
    for name, text in files.items():
        with open(f"{folder}/data/{name}", "wb") as file:
            file.write(text.encode("latin-1"))
        out += [f"== {name}"] + said(text.encode("latin-1"))
    with open(f"{folder}/stdout", "w", newline="\n") as file:
        file.write("".join(line + "\n" for line in out + more))


if __name__ == "__main__":
    written(FOLDER, FILES, report, [line for name, why in UNREAD.items() for line in (f"== {name}", why, "refused")])
