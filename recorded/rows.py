"""The calls that strict.py or saves.py writes, with their answers."""

import os

# The first line of the last part, which saves.py writes. That of strict.py ends before it.
MARK = "# Plans, saves and images. Before each group stands the sentence of document 01 or 02 that settles its answers."

# Calls and answers; comments without one.
rows = []

# The page of the saves and images here.
PAGE = 16


def counted(per_slot, sections):
    """An image's answer: twelve counts and a run of sections."""
    counts = [per_slot.get(i, 0) for i in range(12)]
    return "ok " + " ".join(map(str, counts + [len(sections)] + [n for s in sections for n in s]))


NO_SECTIONS = counted({}, [])


def says(*lines):
    for line in lines:
        rows.append(("# " + line, None))


def call(line, answer):
    rows.append((line, answer))


def text_of(image):
    return image.hex() or "-"


def image_call(place, image, answer):
    call(f"image {place} {text_of(image)}", answer)


def changed(image, at, *values):
    out = bytearray(image)
    out[at : at + len(values)] = bytes(values)
    return bytes(out)


def calls_in(lines):
    return sum(1 for line in lines if line and not line.startswith("#"))


def put_rows(crate, first, last=None):
    """Writes the rows in place of the part of CRATE/stdin from the line `first` to before the line `last` or the end, and their answers."""
    assert all(len(line) <= 65536 for line, _ in rows)
    asked, answered = os.path.join(crate, "stdin"), os.path.join(crate, "stdout")
    with open(asked) as f:
        lines = f.read().split("\n")[:-1]
    with open(answered) as f:
        answers = f.read().split("\n")[:-1]
    end = lines.index(last) if last else len(lines)
    begin = lines.index(first) if first in lines else end
    answers[calls_in(lines[:begin]) : calls_in(lines[:end])] = [answer for _, answer in rows if answer is not None]
    lines[begin:end] = [first] + [line for line, _ in rows]
    with open(asked, "w") as f:
        f.write("".join(line + "\n" for line in lines))
    with open(answered, "w") as f:
        f.write("".join(answer + "\n" for answer in answers))
