"""What the tools read beside tests: lists, logs, JSON and code, which have an end."""
import errno
import os

# A file has at most so many bytes: a log of tests for many hours.
MOST_BYTES = 2 ** 28


def text(path, encoding="latin-1", errors="strict"):
    """The text of a file; OSError where it is longer, as a device that never ends is."""
    with open(path, encoding=encoding, errors=errors) as file:
        return whole(path, file.read(MOST_BYTES + 1))


def content(path):
    """The bytes of a file; OSError where it is longer."""
    with open(path, "rb") as file:
        return whole(path, file.read(MOST_BYTES + 1))


def whole(path, found):
    """What was read of a file, if that is all."""
    if len(found) > MOST_BYTES:
        raise OSError(errno.EFBIG, os.strerror(errno.EFBIG), path)
    return found
