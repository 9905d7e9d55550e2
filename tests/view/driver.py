"""What is wanted of the machine that the page drives after each choice, against the trace that the program tells of the same
choices as JSON; where it tells none, against the module's, or that of what stands in for it. The lists of what must be shown are made
here without the page's code."""
import json
import re

from bench import BAD_LINE, DIVIDING_LINE, EXAMPLES, FIRST, Bench, differs, read

STORES_AND_LOADS = "X86 SB\n{ }\n P0          | P1          ;\n MOV [x],$1  | MOV [y],$1  ;\n MOV EAX,[y] | MOV EAX,[x] ;\nexists (0:EAX=0 /\\ 1:EAX=0)\n"
LOCKED = "X86 locked\n{ x=3; 1:EAX=5; }\n P0           | P1           ;\n MOV [x],$1   | XCHG [x],EAX ;\n LOCK XADD [y],EAX | MOV EBX,[y]  ;\n MFENCE       | MOV ECX,EBX  ;\n"
SHARED = "X86 shared\n{ }\n P0          | P1          | P2          ;\n MOV [x],$1  | MOV [y],$2  | MOV EAX,[x] ;\n MOV EAX,[y] | MOV EBX,[x] | MOV [z],$3  ;\n MOV [z],$4  | XCHG [z],EAX | MOV EBX,[z] ;\nexists (0:EAX=0)\n"
RUNS = [
    ("SB", read(EXAMPLES, FIRST).partition(DIVIDING_LINE)[0], "0s 1s 0s 1s 0d 1d", {}),
    ("SB with stalls", STORES_AND_LOADS, "0d 0s 0s 0s 1d 0d 1s 1d 1s", {"depth": 1}),
    ("SB without buffers", STORES_AND_LOADS, "0s 0d 1s 0s 1s", {"depth": 0, "protocol": "mesi"}),
    ("n6", read(EXAMPLES, "own-store-first.litmus").partition(DIVIDING_LINE)[0], "0s 0s 0s 1s 1s 1d 1d 0d", {"protocol": "moesi"}),
    ("locked", LOCKED, "0s 0s 1s 0d 0s 1s 1s 0s", {"protocol": "mesi"}),
    ("locked on the split bus", LOCKED, "0s 1s 0d 1s 1s 0d 0d 0s 0s 0s 1s 1s 1s 0s", {"protocol": "mosi", "bus": "split"}),
    ("a full cache", SHARED, "0s 1s 2s 0s 1s 2s 0d 1d 2d 2s 0s 0d 1s 2s", {"ways": 1, "words": 1, "protocol": "moesi"}),
    ("false sharing", SHARED, "seed 5 200", {"words": 2, "sets": 2, "ways": 1}),
    ("false sharing on the split bus", SHARED, "seed 9 300", {"words": 2, "sets": 2, "ways": 1, "bus": "split", "protocol": "mesi"}),
]
# 8 cores of 32 instructions each.
LARGE = "X86 large\n{ }\n %s ;\n" % " | ".join("P%d" % core for core in range(8)) + "".join(
    " %s ;\n" % " | ".join(("MOV [a%d],$%d" % ((row + core) % 8, row) if (row + core) % 3 else "MOV EAX,[a%d]" % ((row * 3 + core) % 8)) for core in range(8))
    for row in range(32))


# What the machines show. A register's name in C, which tests of lessons have beside it, is left out.
SHOWN = """(IN_C => [...document.querySelectorAll('#machines .machine')].map(machine => ({
  cores: [...machine.querySelectorAll('.core')].map(core => ({
    buttons: [...core.querySelectorAll('.core-buttons code')].map(each => each.textContent),
    disabled: [...core.querySelectorAll('[data-choice]')].map(each => each.disabled),
    dead: [...core.querySelectorAll('[data-choice]')].map(each => each.matches('.idle')), offers: [...core.querySelectorAll('.stall')].map(each => !each.hidden),
    place: [...core.querySelectorAll('.program li')].findIndex(each => each.hasAttribute('aria-current')),
    program: [...core.querySelectorAll('.program li')].map(each => each.textContent),
    registers: Object.fromEntries([...core.querySelectorAll('.registers .word')].map(each => each.textContent.replace(IN_C, '').split('='))),
    changedRegisters: [...core.querySelectorAll('.registers .changed')].map(each => each.textContent.replace(IN_C, '')),
    buffer: [...core.querySelectorAll('.buffer .slot:not(.free, .left)')].map(each => each.textContent),
    left: [...core.querySelectorAll('.buffer .left')].map(each => each.lastChild.textContent),
    lines: [...core.querySelectorAll('.cache tbody tr:not(.gone)')].filter(row => row.querySelector('.state')).map(row =>
      [row.querySelector('th').textContent, row.querySelector('.state').textContent, row.lastChild.textContent]),
    changes: [...core.querySelectorAll('.cache .changed')].map(each => each.parentElement.querySelector('th').textContent + ' ' + each.textContent.replace('→', '>')),
    acted: core.classList.contains('acted'),
  })),
  sources: [...machine.querySelectorAll('.source')].map(each => {
    const part = each.closest('.buffer, .cache, .bus, .memory').classList[0], name = each.closest('tr')?.querySelector('th').textContent ?? each.textContent.split('=')[0];
    return [part, each.closest('.core')?.dataset.core ?? '', part === 'bus' ? '' : name, each.dataset.reader];
  }).sort(),
  bus: machine.querySelector('.bus').textContent,
  memory: [...machine.querySelectorAll('.memory li')].map(each => each.textContent),
})))(/ \\(r\\d\\)/)"""


DRAWN = """({
  entries: [...document.querySelectorAll('#frame [data-entry]')].map(each => Number(each.dataset.entry)).sort((a, b) => a - b),
  texts: [...document.querySelectorAll('#frame [data-entry]')].map(each => each.querySelector('title').textContent),
  bars: [...document.querySelectorAll('#frame .wait[data-seen]')].map(each => ['earliest', 'latest', 'seen'].map(name => Number(each.dataset[name]))).sort((a, b) => a[2] - b[2]),
  bare: document.querySelectorAll('#frame .wait:not(:has(.certain))').length,
  open: [...document.querySelectorAll('#frame .wait[data-since]')].map(each => [each.dataset.name, Number(each.dataset.since)]).sort(),
  arrows: [...document.querySelectorAll('#frame path[data-from]')].map(each => [Number(each.dataset.from), Number(each.dataset.to)]).sort((a, b) => a[1] - b[1]),
})"""


class Driver(Bench):
    """The bench with a machine that is driven: it stands first, and the test is folded."""

    IS_UNFOLDED = False

    def to_end(self):
        """These rows begin at the start."""

    def load(self, test, choices, settings=None, width=1400):
        self.open(width=width)
        for name, value in (settings or {}).items():
            self.value("settingOf('%s').value = '%s'" % (name, value))
        self.fill("test", test)
        self.fill("choices", choices)
        self.value("goTo(0)")

    def trace(self, machine=0, words="drive.words"):
        """The trace of the choices that are known."""
        options, input, own = self.value("(options => [options, inputOfWords(%s), bench.tso.answer({ ...options, command: 'trace', json: true }, inputOfWords(%s)).text])"
                                         "(drive.histories[%d].options)" % (words, words, machine))
        said = [word for name, value in options.items() if name != "command" for word in ("--" + name, str(value))]
        status, told, _ = self.program(input, "trace", "--json", *said)
        return json.loads(own if status == BAD_LINE else told)

    def key_choice(self, word):
        for letter in word:
            self.press(letter)

    def choose_step(self, step, way="clicks"):
        """Makes the choice of a step: one that stalls by its own button, any other by its button or by keys."""
        if step["outcome"] == "stalled":
            self.value("document.querySelector('[data-stall=\"%s\"]').click()" % step["choice"])
        elif way == "clicks":
            self.value("document.querySelector('[data-choice=\"%s\"]').click()" % step["choice"])
        else:
            self.key_choice(step["choice"])

    def press(self, key):
        self.window.key(key)


def line_said(line):
    """A line's name as the page says it: x, y for x+y; in what goes over the bus too."""
    return line.replace("+", ", ")


def words_said(line):
    """A line's words, each by its name where they are several."""
    names, words = line["line"].split("+"), line["words"]
    return " ".join("%s=%d" % each for each in zip(names, words)) if len(words) > 1 else str(words[0])


def state_of(machine, core, line, state):
    bus = machine["bus"]
    return bus["state"] if bus and bus["core"] == core and bus["line"] == line and len(bus["state"] or "") > 1 else state


def used_registers(trace, number):
    """The registers that a core's program and the condition name, and those with a word at the start. CMPXCHG uses EAX, and doesn't name it."""
    named = re.findall(r"\b%d\s*:\s*([A-Z]{3})\b" % number, trace["proposition"] or "")
    start = trace["trace"]["start"]["cores"][number]["registers"]
    code = " ".join(trace["programs"][number]).upper().replace("CMPXCHG", "CMPXCHG EAX")
    return [name for name in start if re.search(r"\b%s\b" % name, code) or name in named or start[name]]


def written_registers(cell):
    """The registers that an instruction writes."""
    words = cell.upper().replace(",", " ").split()
    is_locked = words[0] == "LOCK"
    name, *operands = words[is_locked:]
    registers = [each for each in operands if "[" not in each]
    if name in ("XCHG", "XADD", "CMPXCHG"):
        return ["EAX"] if name == "CMPXCHG" else registers
    return [] if is_locked else [each for each in operands[:1] if each in registers]


def wanted_core(trace, step, before, machine, number):
    """What a core's panel has to show after a step, by the trace alone."""
    core, old, program = machine["cores"][number], before["cores"][number], trace["programs"][number]
    bus = machine["bus"] or {"choice": None}
    written = written_registers(program[old["place"]]) if core["place"] != old["place"] else []
    lines = [[line_said(line["line"]), state_of(machine, number, line["line"], line["state"]), words_said(line)] for cached in core["lines"] for line in cached]
    if machine["bus"] and bus["core"] == number and len(bus["state"] or "") > 1 and line_said(bus["line"]) not in [line[0] for line in lines]:
        lines.append([line_said(bus["line"]), bus["state"], "…"])
    changes = [line_said(text.partition(".")[2]) for text in (step["states"] if step else []) if text.startswith("P%d." % number)]
    ended = all(each["place"] == len(trace["programs"][at]) and not each["buffer"] for at, each in enumerate(machine["cores"]))
    holds = [" (holds the bus)" if bus["choice"] == "%d%s" % (number, way) else "" for way in "sd"]
    return {
        "buttons": [(program[core["place"]] if core["place"] < len(program) else "") + holds[0],
                    (core["buffer"][0] if core["buffer"] else "empty") + holds[1]],
        "disabled": [ended, ended], "place": core["place"] if core["place"] < len(program) else -1, "program": program,
        "registers": {name: str(word) for name, word in core["registers"].items() if name in used_registers(trace, number)},
        "changedRegisters": ["%s=%d" % (name, word) for name, word in core["registers"].items() if word != old["registers"][name] or name in written],
        "buffer": core["buffer"], "left": old["buffer"][:1] if len(old["buffer"]) > len(core["buffer"]) else [],
        "lines": lines, "changes": changes, "acted": step is not None and step["choice"].startswith(str(number)),
    }


def taken_copies(step):
    """The copies, newer than memory, that a miss for writing took from another core: where they were, and who took them."""
    changes = [(text[1:text.index(".")], *text.partition(".")[2].split(" ")) for text in (step["states"] if step and step["access"] == "miss" else [])]
    return [["cache", owner, line_said(line), "→P" + step["choice"][0]] for owner, line, change in changes if owner != step["choice"][0] and change in ("M>I", "O>I")]


def wanted_sources(step):
    """Where a panel has to mark that a word was read, or a line taken: the part of the machine, its core, the location or the line, and who did."""
    supplied = step and step.get("supplied")  # a module that was made before has none
    if not supplied:
        return taken_copies(step)
    reader, owner = step["choice"][0], supplied[1:] if supplied[0] == "P" else step["choice"][0]
    locations = [step["entries"][0].split(" ")[2].partition("=")[0]] if step["entries"] else step["after"]["bus"]["line"].split("+")
    if supplied == "bus":
        return [["bus", "", "", "→P" + reader]]
    if supplied in ("buffer", "memory"):
        return sorted([supplied, reader if supplied == "buffer" else "", location, "→P" + reader] for location in locations)
    there = [line["line"] for lines in step["after"]["cores"][int(owner)]["lines"] for line in lines]
    gone = [text.partition(".")[2].partition(" ")[0] for text in step["states"] if text.startswith("P%s." % owner) and text.endswith(">I")]
    return [["cache", owner, line_said(line), "→P" + reader] for line in there + gone if set(locations) & set(line.split("+"))]


def faults_of_machine(shown, trace, count):
    """Where a panel isn't the machine after so many steps of a trace."""
    steps = trace["trace"]["steps"]
    step = steps[count - 1] if 0 < count <= len(steps) else None
    machine = steps[min(count, len(steps)) - 1]["after"] if count else trace["trace"]["start"]
    before = machine if step is None else steps[count - 2]["after"] if count > 1 else trace["trace"]["start"]
    faults = []
    for number, core in enumerate(shown["cores"]):
        wanted = wanted_core(trace, step, before, machine, number)
        for name in wanted:
            same = sorted(core[name]) == sorted(wanted[name]) if name in ("changes", "changedRegisters") else core[name] == wanted[name]
            faults += [] if same else ["P%d after %d, %s: %r, and not %r" % (number, count, name, core[name], wanted[name])]
    words = ["%s=%d%s" % (name, word, "" if machine["seen"][name] == word else " newest %d" % machine["seen"][name]) for name, word in machine["memory"].items()]
    faults += differs("memory after %d" % count, sorted(shown["memory"]), sorted(words))
    faults += differs("where a word was read after %d" % count, shown["sources"], wanted_sources(step))
    held = line_said("P%(core)d holds the bus for %(line)s" % machine["bus"]) if machine["bus"] else "free"
    faults += [] if shown["bus"].startswith(held) else ["the bus after %d: %s, and not %s" % (count, shown["bus"], held)]
    for name in ("transaction", "flush", "write_back"):
        if step and step[name] and line_said(step[name]) not in shown["bus"]:
            faults.append("the bus after %d doesn't say %s" % (count, step[name]))
    return faults


ACTING_LANE = """(() => {
  const { layout } = drawn.picture, left = layout.left(coreOfChoice(drive.words[drive.count - 1])) - byId('frame').scrollLeft;
  return left >= -1 && left + layout.lane <= byId('frame').clientWidth + 1 && byId('names').scrollLeft === byId('frame').scrollLeft;
})()"""


def wanted_picture(trace, count):
    """The order after so many steps, with each store's moments, and the stores that wait."""
    order, waiting, since, half = [], {}, {}, {}
    for step in trace["trace"]["steps"][:count]:
        for text in step["entries"]:
            core, kind = text.partition(":")[0], text.split(" ")[1]
            if step["outcome"] == "buffered":
                waiting.setdefault(core, []).append(text)
                since[text] = len(order)
            elif kind == "LR":
                half[core] = text
            else:
                order += [half.pop(core), text] if kind == "LW" else [text]
                if kind == "W" and text in waiting.get(core, []):
                    waiting[core].remove(text)
    bars = [[since[text], since[text], index] for index, text in enumerate(order) if text in since]
    still = sorted([text.split(" ")[0], since[text]] for texts in waiting.values() for text in texts)
    return order, bars, still


def faults_of_picture(bench, trace, count):
    order, bars, still = wanted_picture(trace, count)
    drawn = bench.value(DRAWN)
    faults = differs("entries after %d" % count, drawn["entries"], list(range(len(order))))
    faults += differs("bars after %d" % count, drawn["bars"], bars) + differs("waiting after %d" % count, [drawn["open"], drawn["bare"]], [still, 0])
    return faults + differs("the order after %d" % count, bench.value("firstHistory().order.slice(0, %d).map(entry => entry.text)" % len(order)), order)


def faults_at(bench, trace, count):
    faults = faults_of_machine(bench.value(SHOWN)[0], trace, count) + faults_of_picture(bench, trace, count)
    said = bench.text("#sentence")
    step = trace["trace"]["steps"][count - 1] if count else None
    if step and step["outcome"] == "stalled" and "Stalled (%s)" % step["stall"] not in said:
        faults.append("a stall for %s is told as %s" % (step["stall"], said))
    return faults + differs("the count", bench.text("#count").split(" ")[0], str(count))
