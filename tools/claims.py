"""The condition of a text of herd's or diy's, and its list of what a log is to show."""
import re

import litmus
import registers
from faults import NUMBER, Fault, number_in, signed_in

LIST = re.compile(r"\s*locations\s*\[((?:[^\[\]]|\[[^\[\]]*\])*)\]\s*;?")
TOKEN = re.compile(r"\s*(?:P?(\d+)\s*:\s*(%?\w+)|(\w+)\s*\[\s*(\d+)\s*\]|(" + NUMBER + r")|(\w+)|(=>|<>|!=|/\\|\\/|.))", re.S)
OTHER_WORDS = {"filter": "write exists, ~exists or forall", "final": "write exists, ~exists or forall",
               "forbidden": "write exists, ~exists or forall", "allowed": "write exists, ~exists or forall",
               "=>": "for A => B write ~A \\/ B", "<>": "for x<>1 write ~(x=1)", "!=": "for x!=1 write ~(x=1)"}


def listed(text):
    """What a list of locations names: locations, registers as pairs of a core and a name, and None for what isn't read."""
    found = []
    for item in filter(str.strip, text.split(";")):
        form = re.fullmatch(r"\s*(?:P?(\d+)\s*:\s*(%?\w+)|\[?\s*(\w+)\s*\]?)\s*", item)
        core, register, location = form.groups() if form else (None, None, None)
        found.append(location if core is None else (number_in(core), register) if registers.whole(register) else None)
    return found


def token_in(groups, words):
    """A token of a condition: a word, or a register as a pair of a core and a name. An element of an array is its location."""
    core, register, array, number, value, word, other = groups
    if core is not None:
        return number_in(core), register
    if array is not None:
        return words.element(array, number_in(number))
    if value is not None:
        return str(signed_in(value))
    if (word or other) in OTHER_WORDS:
        raise Fault("%s isn't read: %s" % (word or other, OTHER_WORDS[word or other]), "%s in a condition" % (word or other))
    return word or other


def claim_in(tokens, names, words):
    """The condition of these tokens, or a Fault beside the number of the token that is at fault."""
    spelled, of_token = [], []
    for number, token in enumerate(tokens):
        here = [str(token[0]), ":", names[token[0]].name(token[1])] if isinstance(token, tuple) else [token]
        spelled += [(one,) for one in here]
        of_token += [number] * len(here)
    reader = litmus.Reader(spelled)
    try:
        condition = reader.condition()
        if reader.peek():
            raise litmus.BadTest("%s after the condition" % reader.peek())
        for place in litmus.claim_places(condition[1]):
            if isinstance(place, str):
                words.location(place)
    except litmus.BadTest as fault:
        at = min(reader.at, len(of_token))
        return Fault(str(fault), "conditions of another form"), of_token[at - 1] if at else 0
    except Fault as fault:
        return fault, 0
    return condition, None
