"""Comments and white space of a text, each looked at once."""
import re

BLANKS = re.compile(r"\s*")
BEGIN, MARK = re.compile(r"\(\*"), re.compile(r"\(\*|\*\)")


def comment_end(text, begin, last=None):
    """The end of the comment that begins here; None where it isn't closed. `last` is the place of the text's last end of a comment."""
    if last is not None and begin + 2 > last:
        return None
    end = text.find("*)", begin + 2)
    return None if end < 0 else end + 2


def blanks_end(text, at, last=None):
    """The first place from here on where neither white space nor a comment stands."""
    while True:
        at = BLANKS.match(text, at).end()
        end = comment_end(text, at, last) if text.startswith("(*", at) else None
        if end is None:
            return at
        at = end


def without(text, begins, end_of, put=" "):
    """The text with a blank, or what is put, for each part that begins so, where it has an end."""
    parts, at = [], 0
    while found := begins.search(text, at):
        end = end_of(found)
        if end is None:
            break
        parts += [text[at:found.start()], put]
        at = end
    return "".join(parts + [text[at:]])


def without_comments(text, put=" "):
    return without(text, BEGIN, lambda found: comment_end(text, found.start()), put)


class Nested:
    """The comments of a text in herd's form, which may stand within one another."""

    def __init__(self, text):
        self.text, self.ends, opened = text, {}, []
        for mark in MARK.finditer(text):
            if mark.group() == "(*":
                opened.append(mark.start())
            elif opened:
                self.ends[opened.pop()] = mark.end()

    def end(self, begin):
        """The end of the comment that begins here, after all that stand within it. As here they don't nest, it's the first end where one is
        missing, and None where there is none."""
        first = self.text.find("*)", begin)
        return self.ends.get(begin) or (None if first < 0 else first + 2)
