#!/usr/bin/python3
"""Writes vectors.txt: the interleaved form as numcodecs writes it, for encode_interleaved, and what numcodecs itself decodes from it, for
decode_interleaved.

Needs the Debian package python3-numcodecs. The form of a line is told in README.md.
"""
import platform
import random

import numcodecs
import numpy
from numcodecs import VLenBytes, VLenUTF8

# Text of numcodecs' own tests.
GREETINGS = [
    "¡Hola mundo!", "Hej Världen!", "Servus Woid!", "Hei maailma!", "Xin chào thế giới", "Njatjeta Botë!",
    "Γεια σου κόσμε!", "こんにちは世界", "世界，你好！", "Helló, világ!", "Zdravo svete!", "เฮลโลเวิลด์",
]


def line(cells, stored, answer):
    words = ["3", str(cells), str(len(stored))]
    if stored:
        words.append(stored.hex())
    if isinstance(answer, int):
        words.append(str(answer))
    else:
        values = b"".join(answer)
        words += ["0", str(len(values))]
        if values:
            words.append(values.hex())
        words.append(str(len(answer) + 1))
        end = 0
        words.append("0")
        for item in answer:
            end += len(item)
            words.append(str(end))
    text = " ".join(words)
    assert len(text) <= 4096, len(text)
    print(text)


def listed(numbers):
    return " ".join(map(str, [len(numbers)] + numbers))


def listed_bytes(some):
    return " ".join([str(len(some))] + ([some.hex()] if some else []))


def written(items, stored, width, place):
    """The items as ragged values of depth 0, and what numcodecs writes for them."""
    offsets = [0]
    for item in items:
        offsets.append(offsets[-1] + len(item))
    kind = "0 1 %d %d 0" % (width, place)
    words = ["9", kind, listed([len(items)]), "0", listed_bytes(b"".join(items)), listed(offsets), "0", listed_bytes(stored)]
    text = " ".join(words)
    if len(text) <= 4096:
        print(text)


def as_bytes(item):
    return item.encode("utf-8") if isinstance(item, str) else bytes(item)


def refused(codec, stored):
    try:
        codec.decode(stored)
    except ValueError:
        return True
    return False


def vector(codec, items):
    array = numpy.empty(len(items), dtype=object)
    array[:] = items
    stored = bytes(codec.encode(array))
    decoded = [as_bytes(item) for item in codec.decode(stored)]
    assert decoded == [as_bytes(item) for item in items]
    line(len(items), stored, decoded)
    return stored, decoded


def main():
    rng = random.Random(1)
    print("# The interleaved form as numcodecs %s writes it (VLenBytes, VLenUTF8), and what it decodes from it." % numcodecs.__version__)
    print("# Made by make vectors with numpy %s and Python %s." % (numpy.__version__, platform.python_version()))
    print("# The form is told in README.md beside this file.")
    texts = [
        [], [""], ["", ""], ["a"], ["AB", ""], ["", "AB"], ["foo", "bar", "baz"] * 20, GREETINGS, GREETINGS[::-1] * 2,
        ["x" * n for n in range(20)], ["\0"], ["\0\0", "", "\0"], ["0-3", "", "0,2,4", "7"], ["😀", "é", "\U0010ffff"],
    ]
    lists = [
        [], [b""], [b"A", b""], [b"", b"", b""], [b"\xff"], [b"\x00"], [bytes(range(256))], [bytes([n]) for n in range(100)],
        [b"foo", b"bar", b"baz"] * 20, [text.encode("utf-8") for text in GREETINGS], [b"x" * 700], [b""] * 300, [b"", b"y" * 255, b"z" * 256],
    ]
    for _ in range(120):
        most = rng.choice([0, 1, 2, 5, 40])
        lists.append([rng.randbytes(rng.randint(0, most)) for _ in range(rng.randint(0, 30))])
        texts.append(["".join(rng.choice("aé€😀 ") for _ in range(rng.randint(0, min(most, 9)))) for _ in range(rng.randint(0, 30))])
    print("# VLenUTF8")
    whole = [vector(VLenUTF8(), items) for items in texts]
    print("# VLenBytes")
    whole += [vector(VLenBytes(), items) for items in lists]

    print("# bytes after the last item: numcodecs does not look at them")
    for stored, decoded in whole[::9]:
        longer = stored + rng.randbytes(rng.randint(1, 9))
        if len(longer) < 1500:
            assert [bytes(item) for item in VLenBytes().decode(longer)] == decoded
            line(len(decoded), longer, decoded)

    print("# the last item cut short: numcodecs raises ValueError; the number of docs/SPEC.md is 7 or 11, by the length")
    for stored, decoded in whole:
        if decoded and decoded[-1] and len(stored) < 300 and rng.random() < 0.3:
            cut = stored[: len(stored) - rng.randint(1, len(decoded[-1]))]
            assert refused(VLenBytes(), cut)
            line(len(decoded), cut, 7 if len(cut) < 4 * (1 + len(decoded)) else 11)

    print("# what numcodecs writes for the items of an array")
    for number, (stored, decoded) in enumerate(whole):
        if decoded:
            written(decoded, stored, 4 + 4 * (number % 2), number // 2 % 2)


main()
