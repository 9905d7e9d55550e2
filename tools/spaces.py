"""A script of the page without what only its readers need: comments, empty lines, and the room before lines and around signs. Its texts, its
templates' texts and its regular expressions stay as they are.
"""
import re

COMMENT = re.compile(r"//[^\n]*|/\*.*?\*/", re.DOTALL)
TEXT = re.compile(r"'(?:[^'\\\n]|\\.)*'|\"(?:[^\"\\\n]|\\.)*\"")
# A template's text, up to its end or to a value in it.
TEMPLATE = re.compile(r"(?:[^`\\$]|\\.|\$(?!\{))*(`|\$\{)", re.DOTALL)
EXPRESSION = re.compile(r"/(?:[^/\\\[\n]|\\.|\[(?:[^\]\\\n]|\\.)*\])+/[a-z]*")
# What a regular expression stands behind; behind anything else its first sign divides.
BEFORE_EXPRESSION = re.compile(r"(?:^|[(,=:\[!&|?{};>+]|\breturn)\s*$")
ROOM = re.compile(r"[ ]*([{}()\[\];,:?=<>!&|*%])[ ]*|[ ]*(\n)\s*|(?<=[\w)\]])[ ]([-+/])[ ](?=[\w(])")


class Scanner:
    """Goes through a script; `pieces` are what it passed: pairs of whether it is code, and of its text."""

    def __init__(self, script):
        self.script, self.at, self.code, self.pieces = script, 0, "", []
        self.outer, self.depth = [], 0  # the braces that are open around each open template, and within the last one

    def take(self, form, begin):
        """Takes what isn't code: from here on, of this form from `begin` on. Answers what was found."""
        found = form.match(self.script, begin)
        if found is None:
            raise ValueError("what begins with %r can't be read" % self.script[self.at:self.at + 40])
        self.pieces += [(True, self.code), (False, self.script[self.at:found.end()])]
        self.code, self.at = "", found.end()
        return found

    def begins_expression(self):
        behind = (self.pieces[-1][1] if self.pieces else "") + self.code
        return self.script[self.at] == "/" and BEFORE_EXPRESSION.search(behind) is not None

    def step(self):
        sign = self.script[self.at]
        comment = COMMENT.match(self.script, self.at)
        if comment is not None:
            self.at = comment.end()
        elif sign in "'\"":
            self.take(TEXT, self.at)
        elif sign == "`":
            if self.take(TEMPLATE, self.at + 1)[1] == "${":
                self.outer, self.depth = [*self.outer, self.depth], 0
        elif sign == "}" and self.depth == 0 and self.outer:
            if self.take(TEMPLATE, self.at + 1)[1] == "`":
                self.depth = self.outer.pop()
        elif self.begins_expression():
            self.take(EXPRESSION, self.at)
        else:
            self.depth += (sign == "{") - (sign == "}")
            self.code, self.at = self.code + sign, self.at + 1


def without_room(script):
    """The script without what only its readers need; an error of values where a text or a template doesn't end."""
    scanner = Scanner(script)
    while scanner.at < len(script):
        scanner.step()
    return "".join(ROOM.sub(r"\1\2\3", text) if is_code else text for is_code, text in [*scanner.pieces, (True, scanner.code)])
