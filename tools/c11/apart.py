"""Judging apart from where a test was compiled: what is told of a task, and what is answered."""
import base64
import types

from . import judging, verdicts
from .asking import Asker
from .tests import Test

# A call of tso takes no longer than so many seconds.
LONGEST_CALL = 60


def told_of(source, compiler, content, asked):
    """A task as plain data: a test whose source has been read, the compiler's words, and the bytes of the object that it made."""
    test = source.test
    return {"test": [test.name, test.text, test.functions], "source": source.text(), "compiler": compiler,
            "object": base64.b64encode(content).decode("ascii"), "model": asked.model, "unroll": asked.unroll, "limit": asked.limit}


def verdict_on(told):
    """The result of a task that is told so, with the `program` that is asked: the members of its verdict, or a `fault`."""
    name, text, functions = told["test"]
    test = Test(name, text, tuple((function, tuple(variables)) for function, variables in functions), None)
    asked = types.SimpleNamespace(unroll=told["unroll"], why=True, code=None, keep=None)
    source = verdicts.SourceJudge(test, told["model"], told["source"])
    asker = Asker(told["program"], 1, min(told["limit"], LONGEST_CALL))
    try:
        return members_of(judging.of_object(source, told["compiler"], base64.b64decode(told["object"]), asked, asker))
    except Exception as fault:
        return fault_of(fault)


def members_of(found):
    """What is kept of a verdict: all that is the same whenever and wherever it is made."""
    return {name: value for name, value in vars(found).items() if name not in ("test", "compiler", "seconds") and value is not None}


def fault_of(fault):
    """The result of a task in which the tool failed."""
    return {"fault": "%s: %s" % (type(fault).__name__, fault)}
