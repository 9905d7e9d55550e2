"""The files that tools write: each whole or not at all, and none in the place of another that the tool wasn't told to replace."""
import fcntl
import os
import stat

# Bytes of a name that the name of the file beside it keeps, so that it isn't too long.
KEPT_OF_NAME = 200


class Occupied(Exception):
    """Something stands where a file is to be written."""


def content(path):
    """The bytes of the file of this path, or None where nothing is there. What is no file, as a device, has none: it is written to as it
    is."""
    try:
        found = os.stat(path)
    except FileNotFoundError:
        return None
    if stat.S_ISDIR(found.st_mode) or stat.S_ISBLK(found.st_mode) or stat.S_ISSOCK(found.st_mode):
        raise Occupied("%s is no file" % path)
    if not stat.S_ISREG(found.st_mode):
        return None
    with open(path, "rb") as file:
        return file.read()


def write_all(texts, force=False, is_own=lambda found: False):
    """Writes these files, bytes by their paths. Where one is there already and has other bytes, it is replaced with `force`, or if
    `is_own` says of its bytes that the tool made it; else that is told, and nothing is written."""
    different = {path: data for path, data in texts.items() if content(path) != data}
    for path in different:
        check(path, force, is_own)
    for path, data in different.items():
        folder = os.path.dirname(path)
        if folder:
            os.makedirs(folder, exist_ok=True)
        write(path, data)


def check(path, force=False, is_own=lambda found: False):
    """Refuses a path where a file stands that may not be replaced, as `write_all` has it."""
    found = content(path)
    if found is not None and not force and not is_own(found):
        raise Occupied("%s is there already, and it is another file: --force replaces it" % path)


def same_file(path, other):
    """Whether two paths name one file, be it there or not."""
    return os.path.realpath(path) == os.path.realpath(other) or (
        os.path.exists(path) and os.path.exists(other) and os.path.samefile(path, other))


def write(path, data):
    """Writes a whole file, in the place of the one that is there: first beside it, and then by its name."""
    real = os.path.realpath(path)
    if os.path.exists(real) and not os.path.isfile(real):
        with open(real, "wb", buffering=0) as device:
            write_whole(device.fileno(), data)
        return
    folder, name = os.path.split(real)
    beside = os.path.join(folder, ".%s.tso-new" % os.fsdecode(os.fsencode(name)[:KEPT_OF_NAME]))
    file = opened(beside, path)
    try:
        os.ftruncate(file, 0)
        if os.path.exists(real):
            os.fchmod(file, stat.S_IMODE(os.stat(real).st_mode))
        write_whole(file, data)
        os.rename(beside, real)
    except BaseException:
        os.unlink(beside)
        raise
    finally:
        os.close(file)


def opened(beside, path):
    """The file beside the one of this path, which what was killed may have left, opened and locked."""
    while True:
        file = os.open(beside, os.O_WRONLY | os.O_CREAT | os.O_NOFOLLOW, 0o666)
        try:
            fcntl.flock(file, fcntl.LOCK_EX | fcntl.LOCK_NB)
            if os.path.samestat(os.stat(beside), os.fstat(file)):
                return file
        except BlockingIOError:
            os.close(file)
            raise Occupied("another call writes %s" % path) from None
        except FileNotFoundError:
            pass
        # another call has just given it its name
        os.close(file)


def write_whole(file, data):
    """Writes all of the bytes to an open file."""
    rest = memoryview(data)
    while rest:
        rest = rest[os.write(file, rest):]
