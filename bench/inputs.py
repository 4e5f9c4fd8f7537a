"""The decoders of examples/, with larger blocks and inputs than those that lie there."""

import os
import re

from rounds import HERE

EXAMPLES = os.path.join(HERE, "..", "examples")

# for each decoder its input, how many bytes its blocks have in examples/, and how many a block has here: at least ten times as many as the
# predictor looks at. jpeg.spf is left out, since its input is one small picture.
DECODERS = {
    "utf8": ("utf8.txt", 256, 1024),
    "csv": ("cities.csv", 256, 2048),
    "strings": ("orders.json", 256, 1024),
    "pcx": ("glider.pcx", 256, 1024),
    "hpack": ("hpack.bin", 128, 512),
    "base64": ("base64.txt", 64, 1024),
    "headers": ("headers.txt", 32, 1024),
}


def read(name):
    with open(os.path.join(EXAMPLES, name), "rb") as file:
        return file.read()


def repeated(name, size):
    """The input of a decoder, repeated up to about this many bytes."""
    content = read(DECODERS[name][0])
    return content * max(1, size // len(content))


# the numbers of a program that are multiples of its blocks' size, or one less
SIZES = re.compile(r"(?<=\(len \+ )\d+(?=\) / )|(?<=\) / )\d+|\b\d+(?= \* k)|(?<= \* k \+ )\d+|(?<=\*len \+ )\d+")


def program_text(name):
    """The decoder with the larger blocks. That of hpack has eight cells for each byte, so it is one of version 2, which may have more cells."""
    _, old, new = DECODERS[name]

    def resized(found):
        number = int(found[0])
        return str(number // old * new if number % old == 0 else (number + 1) // old * new - 1)

    text = SIZES.sub(resized, read(name + ".spf").decode())
    return text.replace("array ", "version 2;\narray ", 1) if name == "hpack" else text
