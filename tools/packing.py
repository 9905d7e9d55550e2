"""What stands packed in a script of the page: by gzip, with no name and no time, as a text in base 91. Where zopfli is installed it packs, since
its gzip is smaller by a twentieth.

    tools/packing.py < FILE        prints the file's bytes packed
"""
import shutil
import subprocess
import sys
import tempfile
import zlib

GZIP = 31
# All that can be printed but the quotes, the sign that begins an element of a page, and the backslash.
LETTERS = "".join(chr(code) for code in range(32, 127) if chr(code) not in "\"'<\\")
BASE = len(LETTERS)
PAIR, LONE = 13, 6  # the bits of two letters, and of one
WHOLE = PAIR  # bytes: of so many bits as these come whole pairs


def letters_of_bits(word, bits):
    """The letters of so many bits: two for each 13, and one for what is left of at most 6."""
    pairs, left = divmod(bits, PAIR)
    added = 0 if left == 0 else LONE if left <= LONE else PAIR
    word <<= max(0, added - left)
    text = LETTERS[word & ((1 << LONE) - 1)] if added == LONE else ""
    word >>= LONE if added == LONE else 0
    for _ in range(pairs + (added == PAIR)):
        first, second = divmod(word & ((1 << PAIR) - 1), BASE)
        text = LETTERS[first] + LETTERS[second] + text
        word >>= PAIR
    return text


def letters(data):
    """Bytes as a text in base 91: two letters for 13 bits."""
    parts = (data[at:at + WHOLE] for at in range(0, len(data), WHOLE))
    return "".join(letters_of_bits(int.from_bytes(part, "big"), 8 * len(part)) for part in parts)


def bytes_of(text):
    """The bytes of such a text; an error of values where it is none."""
    values = [LETTERS.index(letter) for letter in text]
    word = bits = 0
    data = bytearray()
    for at in range(0, len(values), 2):
        pair = values[at:at + 2]
        width = PAIR if len(pair) == 2 else LONE
        word = word << width | (BASE * pair[0] + pair[1] if len(pair) == 2 else pair[0])
        bits += width
        while bits >= 8:
            bits -= 8
            data.append(word >> bits & 255)
        word &= (1 << bits) - 1
    return bytes(data)


def packed_by_library(data):
    """Bytes, packed by Python's own library."""
    packer = zlib.compressobj(9, zlib.DEFLATED, GZIP)
    return packer.compress(data) + packer.flush()


def packed_bytes(data):
    """Bytes, packed, as a text."""
    if shutil.which("zopfli") is None:
        return letters(packed_by_library(data))
    with tempfile.NamedTemporaryFile() as file:
        file.write(data)
        file.flush()
        return letters(subprocess.run(["zopfli", "-c", file.name], stdout=subprocess.PIPE, check=True).stdout)


def packed(text):
    """A text, packed."""
    return packed_bytes(text.encode())


if __name__ == "__main__":
    sys.stdout.write(packed_bytes(sys.stdin.buffer.read()))
