"""The sentences of documents and their words, for tests/documents.py: a long sentence is read twice.

A table's cell, a list's item and a heading are texts of their own, and each has sentences. Code in backquotes is one word, and of a link its
text counts. Fenced and indented blocks, block quotes and bold statements, that is bold texts of four words or more, don't count.
"""
import glob
import os
import re
import sys

from checks.judging import TOP

MOST_WORDS = 40
AIM = 25
SHOWN = 30

CODE = "\0"


def pages():
    """The documents whose sentences are counted: README.md and the pages of docs/."""
    return [os.path.join(TOP, "README.md")] + sorted(glob.glob(os.path.join(TOP, "docs", "*.md")))


def replaced(form, text, word):
    """This text with a word in place of what has this form, and with its line ends."""
    return re.sub(form, lambda found: word + "\n" * found.group().count("\n"), text, flags=re.DOTALL)


def plain(text):
    """A text without its marks: a code mark for what stands in backquotes, a link's words for the link."""
    text = replaced(r"(`+)(?!`).*?(?<!`)\1(?!`)", text, CODE)
    text = replaced(r"!\[[^\]]*\]\([^)]*\)|<!--.*?-->|</?[a-z][^<>]*>", text, "")
    text = re.sub(r"\[([^\]]*)\]\([^)]*\)", r"\1", text)
    bold = re.compile(r"\*\*(.+?)\*\*", re.DOTALL)
    return bold.sub(lambda found: "\n" * found.group().count("\n") if len(words(found.group(1))) >= 4 else found.group(1), text)


def words(sentence):
    return [word for word in sentence.split() if re.search(r"[^\W_]|" + CODE, word)]


END = re.compile(r"[.!?:]?[.!?][)\"'*”]*\s+(?=[\"'“(*]*[A-Z0-9%s])" % CODE)


def sentences_of_text(text, line):
    """The sentences of one text that begins at this line, each with the line where it begins."""
    text, begins = plain(text), 0
    for end in [found.end() for found in END.finditer(text)] + [len(text)]:
        sentence = text[begins:end]
        space = len(sentence) - len(sentence.lstrip())
        yield line + text.count("\n", 0, begins + space), sentence.strip()
        begins = end


ITEM = re.compile(r"\s*(?:[-*+]|\d+[.)]) ")


def texts(document):
    """The texts of a document, each with its first line: paragraphs, headings, items of lists and cells of tables."""
    text, first, fence = [], 0, None
    after_blank = in_list = False
    for number, line in enumerate(document.splitlines() + [""], 1):
        mark = re.match(r"\s*(```+|~~~+)", line)
        if fence:
            fence = None if mark and mark.group(1).startswith(fence) else fence
            continue
        begins = mark or not line.strip() or line.lstrip().startswith("|") or line.startswith(("#", ">")) or ITEM.match(line)
        if text and begins:
            yield first, "\n".join(text)
            text = []
        if mark:
            fence = mark.group(1)
        elif line.lstrip().startswith("|"):
            if not re.fullmatch(r"[|:\- ]+", line):
                yield from ((number, cell.replace("\\|", "|")) for cell in re.split(r"(?<!\\)\|", line))
        elif line.startswith("#"):
            yield number, line.lstrip("# ")
        elif line.strip() and not line.startswith(">"):
            in_list = bool(ITEM.match(line)) or in_list and (bool(text) or line.startswith(" "))
            is_code = line.startswith("    ") and not in_list and not text and (after_blank or not first)
            if not is_code:
                first = first if text else number
                text.append(ITEM.sub("", line, count=1) if begins else line)
        after_blank = not line.strip() or after_blank and line.startswith("    ") and not text


def sentences(path):
    """The sentences of a document: the number of words, the line, the sentence."""
    with open(path, encoding="utf-8") as file:
        document = file.read()
    found = [pair for line, text in texts(document) for pair in sentences_of_text(text, line)]
    return [(len(words(sentence)), line, " ".join(sentence.replace(CODE, "`..`").split())) for line, sentence in found]


def faults_of_length(path):
    return ["line %d, %d words: %s" % (line, count, sentence) for count, line, sentence in sentences(path) if count > MOST_WORDS]


def show(paths):
    """Prints the longest sentences, and of each document how many are long; answers whether none is too long."""
    found, failed = [], 0
    for path in paths:
        mine = sentences(path)
        found += [(count, path, line, sentence) for count, line, sentence in mine]
    found.sort(key=lambda one: -one[0])
    for count, path, line, sentence in found[:SHOWN]:
        print("%3d %s:%d: %s" % (count, os.path.relpath(path), line, sentence))
    for path in paths:
        counts = [count for count, where, _, _ in found if where == path]
        long, too_long = (sum(count > limit for count in counts) for limit in (AIM, MOST_WORDS))
        failed += too_long > 0
        print("%s: %d sentences, %d of more than %d words, %d of more than %d" % (os.path.relpath(path), len([count for count in counts if count]),
                                                                                  long, AIM, too_long, MOST_WORDS))
    print("%d passed, %d failed" % (len(paths) - failed, failed))
    return failed == 0


if __name__ == "__main__":
    sys.exit(0 if show(sys.argv[1:] or pages()) else 1)
