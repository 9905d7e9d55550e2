"""The forms of the parts of a test of herd's or diy's: its first line, the items of its initial state, and where its condition begins."""
import re

HEADER = re.compile(r"(X86(?:_64)?)[ \t]+([^\n]*)(?:\n|\Z)")
DIVIDER, REST_OF_LINE = re.compile(r"^====$", re.M), re.compile(r"[^\n{]*")
ARRAY = re.compile(r"([A-Za-z_][\w ]*?)\s+(\w+)\s*\[\s*(\d+)\s*\]\s*(?:=\s*\{([^{}]*)\})?")
ITEM = re.compile(r"(?:([A-Za-z_][\w ]*?)\s+)?(?:P?(\d+)\s*:\s*(%?\w+)|\[?\s*(\w+)\s*\]?)(?:\s*=\s*(\S+))?")

# The condition, or a list of locations, begins with a line.
CONDITION = re.compile(r"^[^\S\n]*(?:~\s*exists|locations|exists|forall|filter|final|forbidden|allowed)\b", re.M)
