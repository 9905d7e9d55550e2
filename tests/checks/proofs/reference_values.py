"""What the second program (tests/reference) makes of definitions: for each of them a function of the values of
tests/checks/proofs/computed_terms.py."""
from reference import (axioms, candidates, choices, conditions, lexing, litmus, machine, possible, reading, refutations, lemma_refutations,
                       witness)
from reference.orders import Entry

from .computed_terms import NONE, TRUE, Made, Record, curried, truth

KINDS = {"StoreImm": litmus.STORE_NUMBER, "StoreReg": litmus.STORE_REGISTER, "Load": litmus.LOAD, "SetImm": litmus.SET_NUMBER,
         "SetReg": litmus.SET_REGISTER, "Fence": litmus.FENCE, "Xchg": litmus.EXCHANGE, "Xadd": litmus.ADD,
         "CompareExchange": litmus.COMPARE_EXCHANGE, "LockedNegate": litmus.LOCKED_NEGATE, "Negate": litmus.NEGATE, "Swap": litmus.SWAP,
         "Nop": litmus.NOTHING}
# Those of an operator and an operand: their kinds where it is a number, and where it is a register.
OF_OPERATORS = {"LockedCombine": (litmus.LOCKED_NUMBER, litmus.LOCKED_REGISTER), "Combine": (litmus.COMBINE_NUMBER, litmus.COMBINE_REGISTER)}
OPERATORS = {"Add": "ADD", "Subtract": "SUB", "And": "AND", "Or": "OR", "Xor": "XOR"}
# The arguments of each instruction, in the order in which a definition has them.
ARGUMENTS = {"StoreImm": ("location", "source"), "StoreReg": ("location", "source"), "Load": ("register", "location"), "SetImm": ("register", "source"),
             "SetReg": ("register", "source"), "Fence": (), "Xchg": ("location", "register"), "Xadd": ("location", "register"),
             "CompareExchange": ("location", "register"), "LockedNegate": ("location",), "Negate": ("register",),
             "Swap": ("register", "source"), "Nop": (), "LockedCombine": ("location", "operator", "source"),
             "Combine": ("register", "operator", "source")}
UNIPROC_ALONE = "uniproc forbids the candidate"
QUANTIFIERS = {"exists": "Exists", "~exists": "NotExists", "forall": "Forall"}


def text(codes):
    return bytes(codes).decode("latin-1")


def codes(said):
    return tuple(said.encode("latin-1"))


# ---- values of definitions, as the second program has them


def register_number(register):
    return litmus.REGISTERS.index(register[0].upper())


def argument_of(value):
    return register_number(value) if isinstance(value, Made) else value["0"] if isinstance(value, Record) else value


def instruction_of(made):
    if made[0] in OF_OPERATORS:
        of_number, of_register = OF_OPERATORS[made[0]]
        first, operator, operand = made[1:]
        kind = of_number if operand[0] == "Number" else of_register
        return litmus.Instruction(kind, **{ARGUMENTS[made[0]][0]: argument_of(first)}, source=argument_of(operand[1]), operator=OPERATORS[operator[0]])
    named = dict(zip(ARGUMENTS[made[0]], map(argument_of, made[1:])))
    return litmus.Instruction(KINDS[made[0]], **named)


def test_of(t):
    programs = [[instruction_of(one) for one in program] for program in t["programs"]]
    return litmus.Test(text(t["name"]), list(map(text, t["locations"])), list(t["words"]), list(map(list, t["registers"])), programs)


def entry_of(e):
    return Entry(e["core"]["0"], e["place"], e["kind"][0], e["loc"]["0"], e["value"])


def choice_of(made):
    return made[1]["0"], choices.STEP if made[0] == "Step" else choices.DRAIN


# ---- what the second program has, as values of definitions


def number(value):
    return Record({"0": value})


def entry_value(entry):
    return Record(core=number(entry.core), place=entry.place, kind=Made((entry.kind,)), loc=number(entry.location), value=entry.value)


def choice_value(choice):
    return Made(("Step" if choice[1] == choices.STEP else "Drain", number(choice[0])))


def argument_value(field, value, kind):
    if field == "operator":
        return Made((next(name for name, mnemonic in OPERATORS.items() if mnemonic == value),))
    is_register = field == "register" or field == "source" and kind in litmus.OF_REGISTERS
    found = Made((litmus.REGISTERS[value].capitalize(),)) if is_register else number(value) if field == "location" else value
    if field == "source" and any(kind in kinds for kinds in OF_OPERATORS.values()):
        return Made(("Held" if is_register else "Number", found))
    return found


def instruction_value(instruction):
    kinds = {**{name: (kind,) for name, kind in KINDS.items()}, **OF_OPERATORS}
    name = next(name for name, found in kinds.items() if instruction.kind in found)
    return Made((name, *(argument_value(field, getattr(instruction, field), instruction.kind) for field in ARGUMENTS[name])))


def claim_value(proposition):
    kind, *parts = proposition
    if kind in ("and", "or"):
        name, (found, *more) = ("AndClaim" if kind == "and" else "OrClaim"), map(claim_value, parts[0])
        for claim in more:
            found = Made((name, found, claim))
        return found
    if kind == "register":
        return Made(("RegClaim", parts[0], Made((litmus.REGISTERS[parts[1]].capitalize(),)), parts[2]))
    if kind == "truth":
        return Made(("TruthClaim", truth(parts[0])))
    return Made(("NotClaim", claim_value(parts[0]))) if kind == "not" else Made(("LocClaim", *parts))


def condition_value(test):
    if test.proposition is None:
        return NONE
    return Made(("Some", Record(quantifier=Made((QUANTIFIERS[test.quantifier],)), claim=claim_value(test.proposition))))


def test_value(test):
    programs = tuple(tuple(map(instruction_value, program)) for program in test.programs)
    return Record(name=codes(test.name), locations=tuple(map(codes, test.locations)), words=tuple(test.words),
                  registers=tuple(map(tuple, test.registers)), programs=programs, condition=condition_value(test))


# ---- texts


SETS = {"Basic": litmus.BASIC, "All": litmus.ALL}


def told_in(instructions, spelled):
    """The refusal of a text that spells no test, with its line, and what stands from the place of its fault on."""
    given = lexing.Text(bytes(spelled), SETS[instructions[0]])
    try:
        reading.TestReader(given).test()
    except lexing.Fault as fault:
        refusal = Record(line=given.line_of(fault.place), why=Made((fault.name,)))
        return Made(("Some", Record({"0": refusal, "1": spelled[fault.place:]})))
    return NONE


def spells_test(instructions, spelled, t):
    return test_value(reading.TestReader(lexing.Text(bytes(spelled), SETS[instructions[0]])).test()) == t


# ---- orders, runs, candidates


def is_execution(t, order):
    return axioms.first_breach(test_of(t), list(map(entry_of, order))) is None


def keeps_all_order(order):
    entries = list(map(entry_of, order))
    return not any(late.is_before(early) for at, late in enumerate(entries) for early in entries[:at])


def read_values(entries):
    found = {}
    for entry in entries:
        if entry.is_read():
            found.setdefault(entry[:3], entry.value)
    return found


def final_registers(t, order):
    test, reads = test_of(t), read_values(map(entry_of, order))
    return tuple(tuple(axioms.thread(test, core, reads)[1]) for core in range(test.cores()))


def final_words(t, order):
    words = list(t["words"])
    for entry in map(entry_of, order):
        if entry.is_write():
            words[entry.location] = entry.value
    return tuple(words)


class Told:
    """Caches that answer whether an access hits as they are told; they have the words of the machine's own caches."""

    def __init__(self, caches):
        self.caches, self.answer = caches, None

    def __getattr__(self, name):
        return getattr(self.caches, name)

    def hits(self, core, location, write):
        return self.answer


class Attempts(machine.Machine):
    """A machine whose choices come with the answers whether their accesses hit. It counts what is made and what waits for the bus alone."""

    def __init__(self, t, bus, depth, attempts):
        super().__init__(test_of(t), machine.Configuration(depth=depth, bus=bus[0].lower()))
        self.caches = Told(self.caches)
        self.used = self.stalled = self.for_bus = self.waited = 0
        for attempt in attempts:
            if self.has_ended():
                break
            self.caches.answer = attempt["hits"] == TRUE
            self.attempt(*choice_of(attempt["choice"]))
        self.unused = len(attempts) - self.used

    def attempt(self, core, action):
        made = len(self.order)
        self.used += 1
        self.stalled += not self.choose(core, action)
        waits = self.outcome == machine.BUS
        is_first_part = [entry.kind for entry in self.order[made:]] == ["LR"]
        self.waited += waits
        self.for_bus += waits or self.outcome == machine.ASKED or is_first_part

    def core_value(self, number):
        core = self.cores[number]
        pending = (Entry(number, store.place, "W", store.location, store.value) for store in core.pending)
        return Record(place=core.place, registers=tuple(core.registers), pending=tuple(map(entry_value, pending)))

    def run(self):
        memory = tuple(self.caches.final_words(len(self.test.words)))
        state = Record(memory=memory, cores=tuple(map(self.core_value, range(len(self.cores)))))
        return Record(ended=truth(self.has_ended()), state=state, commits=tuple(map(entry_value, self.order)), used=self.used,
                      stalled=self.stalled, unused=self.unused)


def run(t, depth, made):
    return Attempts(t, ("atomic",), depth, [Record(choice=choice, hits=TRUE) for choice in made]).run()


def run_on(bus, t, depth, attempts):
    return Record(run=Attempts(t, bus, depth, attempts).run())


def candidate_of(test, c):
    reads, entries, sources = list(map(list, c["reads"])), [], {}
    for core in range(test.cores()):
        places = [entry[:3] for entry in axioms.thread(test, core, {})[0] if entry.is_read()]
        entries += axioms.thread(test, core, dict(zip(places, reads[core])))[0]
    for entry in entries:
        if entry.is_read():
            source = c["source"](entry_value(entry))
            sources[candidates.bare(entry)] = None if source == NONE else candidates.bare(entry_of(source[1]))
    orders = ((at, [candidates.bare(entry_of(e)) for e in c["coherence"](at)]) for at in range(len(test.words)))
    coherence = {at: order for at, order in orders if order}
    return candidates.Candidate(entries, sources, coherence)


def faults(model, t, c):
    test = test_of(t)
    return candidate_of(test, c).faults(test, model)


def is_forbidden(t, c):
    return faults(candidates.TSO, t, c) not in ([], ["it is no candidate of the test"])


def is_candidate_of(t, order, c):
    test = test_of(t)
    found, due = candidate_of(test, c), candidates.candidate_of(test, list(map(entry_of, order)))
    return vars(found) == vars(due)


def truth_of(registers, words, claim):
    return truth(conditions.truth_of(proposition_of(claim), registers, words))


def proposition_of(claim):
    name, *parts = claim
    if name in ("AndClaim", "OrClaim"):
        return name[:-len("Claim")].lower(), [proposition_of(part) for part in parts]
    if name == "RegClaim":
        return "register", parts[0], register_number(parts[1]), parts[2]
    if name == "LocClaim":
        return ("location", *parts)
    return ("not", proposition_of(parts[0])) if name == "NotClaim" else ("truth", parts[0] == TRUE)


MODELS = {"Tso": candidates.TSO, "Sequential": candidates.SC}
CYCLES = {"OnLocation": "uniproc", "Globally": "cycle"}


def part_of(nodes, writes):
    """The part of a tree that the first of these nodes begins, which are then taken away; `writes` are the test's."""
    kind, *given = nodes.pop(0)
    if kind == "ReadsFrom":
        read = entry_of(given[0])
        sources = [None] + [write for write in writes if write.location == read.location]
        return refutations.Reads(read, {source: part_of(nodes, writes) for source in sources})
    if kind == "ComesFirst":
        return refutations.First(*map(entry_of, given), (part_of(nodes, writes), part_of(nodes, writes)))
    if kind in CYCLES:
        return refutations.Cycle(CYCLES[kind], list(map(entry_of, given[0])))
    return refutations.FalseClaim() if kind == "FalseClaim" else refutations.Between(*map(entry_of, given))


def refutes(model, t, claim, nodes):
    test, left = test_of(t), list(nodes)
    test.quantifier, test.proposition = "exists", proposition_of(claim)
    events = candidates.events_of(test)
    try:
        part = part_of(left, [event for event in events if event.is_write()])
        refutations.judge(part, refutations.Known(test, events), MODELS[model[0]])
    except (refutations.Wrong, IndexError):
        return truth(False)
    return truth(not left)


# ---- refutations by lemmas

def optional_event(made):
    return None if made == NONE else candidates.bare(entry_of(made[1]))


def fact_of(made):
    name, *given = made
    if name == "Before":
        return possible.Before(*map(entry_of, given))
    if name == "Holds":
        return possible.Holds(possible.paired(proposition_of(given[0])), given[1] == TRUE)
    if name == "From":
        return possible.From(entry_of(given[0]), optional_event(given[1]), given[2] == TRUE)
    return getattr(possible, name)(entry_of(given[0]), *given[1:-1], given[-1] == TRUE)


# The closings, by their nodes.
CLOSING_NODES = {"OnLocation": "uniproc", "Globally": "cycle", "Between": "between", "ByLemma": "lemma"}


def answers_at(judging, board, name, given):
    """The answers to a question, each as its facts; none of a closing. Raises `Wrong` where the node may not stand here."""
    if name == "Asks":
        return [[fact_of(given[0])], [possible.opposite(fact_of(given[0]))]]
    if name == "HasCase":
        return judging.programs.cases_of(*board.facts[given[0]])
    questions = {"ReadsFrom": (lemma_refutations.sources_of, entry_of), "ReadsValue": (lemma_refutations.values_of, entry_of),
                 "ComesLast": (lemma_refutations.lasts_of, int), "IsReadBy": (lemma_refutations.readers_of, int, optional_event)}
    if name in questions:
        asked, *readers = questions[name]
        return asked(board, *(read(one) for read, one in zip(readers, given)))
    words = {"OnLocation": lambda: map(entry_of, given[0]), "Globally": lambda: map(entry_of, given[0]), "Between": lambda: map(entry_of, given),
             "ByLemma": lambda: [given[0] + 1]}
    is_so = judging.first_false(board) is not None if name == "FalseClaim" else judging.is_so(board, CLOSING_NODES[name], *words[name]())
    if not is_so:
        raise refutations.Wrong("a closing that isn't so")
    return []


def close(judging, board, nodes):
    """Whether these nodes are a tree for the branch, and no more."""
    boards = [board]
    for name, *given in nodes:
        if not boards:
            return False
        board = boards.pop(0)
        boards = [judging.programs.board(tuple(answer) + board.facts) for answer in answers_at(judging, board, name, given)] + boards
    return not boards


def refutes_by_lemmas(model, t, claim, lemmas, nodes):
    test = test_of(t)
    test.quantifier, test.proposition = "exists", proposition_of(claim)
    judging = lemma_refutations.Judge(test, MODELS[model[0]])
    try:
        for lemma in lemmas:
            facts = list(map(fact_of, lemma["facts"]))
            if not close(judging, judging.board(facts), lemma["tree"]):
                return truth(False)
            judging.lemmas.append(lemma_refutations.Lemma(facts, None, None))
        return truth(close(judging, judging.board(), nodes))
    except (refutations.Wrong, IndexError):
        return truth(False)


def optional(value):
    return NONE if value is None else Made(("Some", value))


def readings(t, facts):
    """What the facts leave possible for each read, as rounds tell it."""
    rows = possible.Programs(test_of(t)).board(tuple(map(fact_of, facts))).rows
    return tuple(Record(read=entry_value(read), sources=tuple(optional(source and entry_value(source)) for source in sources),
                        values=optional(None if values is None else tuple(values)), least=least) for read, (sources, values, least) in rows.items())


VOICES = {
    ("worked_examples.specs.RefusedTexts", "told_in"): curried(2, told_in),
    ("litmus_reader.specs.Spelling", "SpellsTest"): curried(3, spells_test),
    ("tso_terms.specs.Axioms", "IsTsoExecution"): curried(2, is_execution),
    ("tso_terms.specs.SequentialConsistency", "KeepsAllOrder"): keeps_all_order,
    ("tso_terms.specs.FinalState", "final_registers"): curried(2, final_registers),
    ("tso_terms.specs.FinalState", "final_words"): curried(2, final_words),
    ("tso_terms.specs.Condition", "truth_of"): curried(3, truth_of),
    ("tso_terms.specs.Runs", "run"): curried(3, run),
    ("tso_terms.specs.EitherBus", "run_on"): curried(4, run_on),
    ("tso_laws.specs.BusRuns", "made_for_bus"): curried(5, lambda bus, t, depth, state, attempts: Attempts(t, bus, depth, attempts).for_bus),
    ("tso_laws.specs.BusRuns", "wait_for_bus"): curried(5, lambda bus, t, depth, state, attempts: Attempts(t, bus, depth, attempts).waited),
    ("tso_laws.specs.Depth", "needed"): lambda order: witness.needed(list(map(entry_of, order))),
    ("tso_laws.specs.Along", "choices_along"): curried(2, lambda t, order: tuple(
        map(choice_value, witness.choices_along(test_of(t), list(map(entry_of, order)))))),
    ("refutation_laws.specs.Refutations", "refutes"): curried(4, refutes),
    ("lemma_refutations.specs.Refutations", "refutes"): curried(5, refutes_by_lemmas),
    ("possible_reads.specs.Possible", "readings"): curried(2, readings),
    ("relational_model.specs.Model", "IsAllowed"): curried(2, lambda t, c: not faults(candidates.TSO, t, c)),
    ("relational_model.specs.Model", "IsForbidden"): curried(2, is_forbidden),
    ("relational_model.specs.Model", "IsForbiddenByUniproc"): curried(2, lambda t, c: faults(candidates.TSO, t, c) == [UNIPROC_ALONE]),
    ("relational_model.specs.SequentialModel", "IsSequential"): curried(2, lambda t, c: not faults(candidates.SC, t, c)),
    ("relational_model.specs.CandidatesOfOrders", "IsCandidateOf"): curried(3, is_candidate_of),
}
