"""The answers of the program `tso` as objects. Members have the names of docs/schemas/, but for `from`, which is `from_`."""
import typing

from .making import Record, record

Word, Place = int, str


@record
class Observation(Record):
    """In how many states, or runs, the condition's proposition is `true` and `false`; the word is Never, Sometimes or Always."""

    word: str
    true: int
    false: int


@record
class State(Record):
    """A final state: values by places, as 0:EAX and x; choices that lead there; and whether the condition's proposition holds in it, None
    without a condition."""

    values: dict[Place, Word]
    choices: str
    holds: typing.Optional[bool] = None


@record
class Outcomes(Record):
    """All final states at a depth of the buffers. The verdict, Ok or No, says whether it is as the condition claims. Without a condition
    there is neither observation nor verdict."""

    test: str
    depth: int
    states: list[State]
    observation: typing.Optional[Observation]
    verdict: typing.Optional[str] = None


@record
class Machine(Record):
    """The machine of a run. The bus is atomic or split."""

    protocol: str
    depth: int
    sets: int
    ways: int
    words: int
    bus: str = "atomic"


@record
class Condition(Record):
    """A condition: its kind, exists, ~exists or forall, and whether its proposition holds."""

    kind: str
    holds: bool


@record
class Choices(Record):
    """How many choices were used, how many of these stalled, and how many stood after the end."""

    used: int
    stalled: int
    unused: int


@record
class Cache(Record):
    """What a core's accesses were."""

    hits: int
    misses: int
    upgrades: int
    forwards: int
    write_backs: int
    flushes: int


@record
class Run(Record):
    """A run that ended: the order that memory saw, entry by entry, each core's registers, and each location's word."""

    test: str
    machine: Machine
    order: list[str]
    registers: list[dict[str, Word]]
    memory: dict[Place, Word]
    condition: typing.Optional[Condition]
    choices: Choices
    cache: list[Cache]


@record
class Copy(Record):
    """A core's copy of a line of the caches: its state, and the words of its locations."""

    line: str
    state: str
    words: list[Word]


@record
class Core(Record):
    """A core: how many instructions are done, its registers, its pending stores, the oldest first, and its cache, set by set."""

    place: int
    registers: dict[str, Word]
    buffer: list[str]
    lines: list[list[Copy]]


@record
class Holder(Record):
    """The action that holds the split bus."""

    core: int
    choice: str
    line: str
    state: typing.Optional[str]
    words: list[Word]


@record
class Moment(Record):
    """A machine between two choices: memory's own words, and those that the machine means."""

    cores: list[Core]
    memory: dict[Place, Word]
    seen: dict[Place, Word]
    bus: typing.Optional[Holder]


@record
class Step(Record):
    """What a choice did. docs/TRACE.md has each member."""

    choice: str
    outcome: str
    entries: list[str]
    forwarded: bool
    states: list[str]
    after: Moment
    access: typing.Optional[str]
    flush: typing.Optional[str]
    moved: typing.Optional[str]
    stall: typing.Optional[str]
    transaction: typing.Optional[str]
    write_back: typing.Optional[str]
    supplied: typing.Optional[str] = None


@record
class Trace(Record):
    """The machine at the start, and what each choice did."""

    start: Moment
    steps: list[Step]


@record
class Traced(Run):
    """A run with its trace, each core's instructions, and the condition's proposition as text."""

    programs: list[list[str]]
    proposition: typing.Optional[str]
    trace: Trace


@record
class Met(Record):
    """A final state that so many runs of a sweep met."""

    runs: int
    values: dict[Place, Word]


@record
class Sweep(Record):
    """What the runs of many seeds met, and how many of them ended and didn't. A state that isn't met may still be possible."""

    test: str
    states: list[Met]
    ended: int
    unfinished: int
    observation: typing.Optional[Observation]


@record
class Spread(Record):
    """A number over the runs that ended: its sum, the least and the greatest."""

    sum: int
    least: int
    greatest: int


@record
class Counted(Record):
    """What a core's cache did over the runs that ended: what its accesses were, its requests on the bus, the copies of other cores that
    they turned to I, and the lines that were supplied to it and written to memory for it."""

    hits: Spread
    misses: Spread
    upgrades: Spread
    forwards: Spread
    write_backs: Spread
    flushes: Spread
    get_s: Spread
    get_m: Spread
    invalidations: Spread
    from_caches: Spread
    from_memory: Spread
    to_memory: Spread


@record
class Runs(Record):
    """How many runs ended and how many didn't; of many seeds how many there are, the first, and how many choices each makes."""

    ended: int
    unfinished: int
    seeds: typing.Optional[int] = None
    from_: typing.Optional[int] = None
    length: typing.Optional[int] = None


@record
class Counts(Record):
    """What the caches did in runs, for each core; None where no run ended."""

    test: str
    machine: Machine
    runs: Runs
    cores: typing.Optional[list[Counted]]


@record
class Check(Record):
    """Whether an order is an execution; else `breach`, the words of the first breach: a letter and what it names."""

    valid: bool
    breach: typing.Optional[str] = None


@record
class Witness(Record):
    """Choices that reach an order; else the depth of the buffers that it `needed`, or its first `breach`."""

    choices: typing.Optional[str] = None
    needed: typing.Optional[int] = None
    breach: typing.Optional[str] = None


@record
class Asked(Record):
    """Which truth of its condition's proposition a test asks for."""

    kind: str
    truth: bool


@record
class Source(Record):
    """The write that a read reads from, or `initial`."""

    read: str
    write: str


@record
class Allowed(Record):
    """An execution in which what is asked is so: the source of each read, each location's writes in their order, choices that lead there,
    and the last values."""

    test: str
    model: str
    asked: typing.Optional[Asked]
    verdict: typing.Optional[str]
    choices: str
    sources: list[Source]
    coherence: dict[Place, list[str]]
    values: dict[Place, Word]


@record
class Edge(Record):
    """An edge of the model's relations between two events: po, mfence, implied, rf, co or fr."""

    from_: str
    relation: str
    to: str


@record
class Closing(Record):
    """Why a case can't be: a cycle (cycle or uniproc), between, false, a question without an answer (none, with what it asks `of`), or a
    lemma. What a closing hasn't is None."""

    step: str
    cycle: typing.Optional[list[Edge]] = None
    read: typing.Optional[str] = None
    between: typing.Optional[str] = None
    write: typing.Optional[str] = None
    places: typing.Optional[dict[Place, list[Word]]] = None
    question: typing.Optional[str] = None
    of: typing.Optional[str] = None
    lemma: typing.Optional[int] = None


@record
class Reason(Record):
    """A step of a proof: what is given, or what a lemma says is never all so (never), by `facts`; a case or what is so by its `answers`, each
    with its facts, with its `closing` where that stands in the step; a leaf; or endcases. Of older programs a case or what is so names the
    read and `from_` which writes, or two writes of which one is `first`, and the step that follows has what closes it (cycle, uniproc,
    between or false). What a step hasn't is None."""

    step: str
    depth: typing.Optional[int] = None
    facts: typing.Optional[list[str]] = None
    lemma: typing.Optional[int] = None
    question: typing.Optional[str] = None
    answers: typing.Optional[list[list[str]]] = None
    closing: typing.Optional[Closing] = None
    read: typing.Optional[str] = None
    from_: typing.Optional[list[str]] = None
    first: typing.Optional[str] = None
    second: typing.Optional[str] = None
    cycle: typing.Optional[list[Edge]] = None
    between: typing.Optional[str] = None
    write: typing.Optional[str] = None
    places: typing.Optional[dict[Place, list[Word]]] = None


@record
class Never(Record):
    """Why what is asked is so in no execution: a proof with so many leaves."""

    test: str
    model: str
    asked: typing.Optional[Asked]
    verdict: typing.Optional[str]
    leaves: int
    steps: list[Reason]
