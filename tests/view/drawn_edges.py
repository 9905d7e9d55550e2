"""Rows for pictures that stay clear: no way of an edge crosses a box or a word; what moves when a run is played."""
import os

import reasons
from bench import differs, safety
from driver import Driver
from teaching import test_of

RING = ("X86 ring\n{ }\n %s ;\n" % " | ".join("P%d" % core for core in range(8)) + " %s ;\n" % " | ".join("MOV [a%d],$1" % core for core in range(8)) + " %s ;\n" % " | ".join(["MFENCE"] * 8)
        + " %s ;\n" % " | ".join("MOV EAX,[a%d]" % ((core + 3) % 8) for core in range(8)) + "exists (%s)\n" % " /\\ ".join("%d:EAX=0" % core for core in range(8)))
MOST_CYCLES = 5  # of a test
CLEAR = ("IRIW", "IRIW+mfences", "3.SB", "3.SB+mfences", "WRC+mfences", "4.SB+mfences", "SB+mfences", "MP", "R", "INC+xadds", "2+2W")

# Where a way of an edge, or its letters, lies over a box or a word that isn't its own; and letters over letters.
CROSSED = """[...document.querySelectorAll('#states .picture')].flatMap(picture => {
  const faults = [], find = what => [...picture.querySelectorAll(what)];
  const boxOf = each => each.getBBox(), name = each => each.textContent.slice(0, 30);
  const boxes = find(':scope > .store > rect, :scope > .load > rect'), chips = find('.chip'), words = find('text').filter(each => !each.closest('[data-letters]'));
  const places = new Map([...boxes, ...chips, ...words].map(each => [each, boxOf(each)]));
  const inside = (box, { x, y }, by) => x > box.x + by && x < box.x + box.width - by && y > box.y + by && y < box.y + box.height - by;
  const meet = (a, b) => a.x < b.x + b.width - 1 && b.x < a.x + a.width - 1 && a.y < b.y + b.height - 1 && b.y < a.y + a.height - 1;
  for (const edge of find('[data-edge]')) {
    const way = edge.querySelector('path'), length = way.getTotalLength();
    const others = chips.filter(chip => chip.closest('[data-letters]').dataset.letters !== edge.dataset.edge);
    for (let at = 0; at <= length; at += 3) {
      const point = way.getPointAtLength(at), met = [...boxes, ...words, ...others].find(each => inside(places.get(each), point, 1));
      if (met) { faults.push(`${name(edge)} crosses ${met.tagName} ${name(met.closest('g'))}`); break; }
    }
  }
  chips.forEach((chip, at) => {
    const met = [...boxes, ...words, ...chips.slice(at + 1)].find(each => meet(places.get(chip), places.get(each)));
    if (met) faults.push(`letters of ${name(chip.closest('g'))} lie over ${met.tagName} ${name(met.closest('g'))}`);
  });
  return faults;
})"""


def clear_row(bench, folder):
    """Each cycle and each execution of these tests, up to eight cores, is drawn clear; the same under the other model."""
    faults = []
    for name in CLEAR + ("ring",):
        for model in ("tso", "sc"):
            bench.open_fresh(width=1600)
            bench.fill("test", RING if name == "ring" else test_of(name))
            bench.value("settingOf('model').value = '%s'; askWhy()" % model)
            bench.wait("!bench.task && document.querySelector('.reason')")
            cycles = bench.value("[...document.querySelectorAll('[data-cycle]')].map(each => each.dataset.cycle)")
            for at in cycles[:MOST_CYCLES] or [None]:
                if at is not None:
                    bench.value("document.querySelector('[data-cycle=\"%s\"]').click()" % at)
                faults += ["%s under %s, %s: %s" % (name, model, at, fault) for fault in bench.value(CROSSED)]
            if model == "tso":
                bench.window.screenshot(os.path.join(folder, "clear-%s.png" % name), whole=False)
    return faults + safety(bench)


MANY = """X86 many
{ }
 P0         | P1         | P2         | P3         | P4          | P5          | P6         | P7         ;
 MOV [x],$1 | MOV [x],$2 | MOV [x],$3 | MOV [x],$4 | MOV [a],$1  | MOV [b],$1  | MOV [x],$5 | MOV [x],$6 ;
 MOV EBX,[x] | MOV EBX,[x] | MOV EBX,[x] | MOV EBX,[x] | MFENCE  | MFENCE      | MOV EBX,[x] | MOV EBX,[x] ;
 MOV [y],$1 | MOV [y],$2 | MOV [y],$3 | MOV [y],$4 | MOV EAX,[b] | MOV EAX,[a] | MOV [y],$5 | MOV [y],$6 ;
exists (4:EAX=%d /\\ 5:EAX=0)
"""
DRAWN = "[...document.querySelectorAll('.reason .head')].map(each => each.textContent)"


def left_out_row(bench):
    """Of many cores those without an arrow are left out, which is said; and of many arrows those that don't matter for what is asked, where picks show them."""
    bench.open_fresh(width=1280)
    faults, all_cores = [], ["P%d" % core for core in range(8)]
    for word, few in ((0, ["P4", "P5"]), (1, ["P4", "P5"])):
        bench.fill("test", MANY % word)
        bench.value("askWhy()")
        bench.wait("!bench.task && document.querySelector('.reason .drawn-part')")
        faults += differs("cores of %d" % word, bench.value(DRAWN), few)
        edges = bench.value("document.querySelectorAll('.reason [data-edge]').length")
        if word == 0:
            faults += differs("what is left out", bench.text(".drawn-part .buttons"), "Cores without an arrow are left out.")
        else:
            every = bench.value("for (const each of [...document.querySelectorAll('.pick')].filter(each => /^P/.test(each.textContent))) each.click(); sheet.cycle.cycle.length")
            faults += differs("all cores of %d" % word, bench.value(DRAWN), all_cores)
            is_said = bench.text(".picks").startswith("Drawn are %d of %d arrows" % (every, every))
            faults += [] if is_said and every > edges else ["all arrows are %d" % edges]
        bench.value("backToRun()")
    return faults + safety(bench)


BIG = '''X86 big8
{ }
 P0 | P1 | P2 | P3 | P4 | P5 | P6 | P7 ;
 MOV [w],$2 | MOV EAX,[x] | MOV EAX,[z] | MOV [x],$2 | MOV [z],$1 | MOV [z],$2 | MOV EAX,[y] | MOV [w],$3 ;
 MOV EAX,[y] | MOV [y],$1 | MOV EBX,[z] | MOV [w],$1 | MOV [w],$3 | MOV EAX,[y] | MOV EBX,[w] | MOV EAX,[x] ;
 MOV [w],$3 | MOV EBX,[w] | MOV [x],$2 | MOV [x],$1 | MOV EAX,[x] | MOV EBX,[w] | MOV ECX,[x] | MOV [y],$3 ;
 MFENCE | MOV [y],$3 | MOV [z],$2 | MFENCE | MOV [y],$1 | MOV ECX,[y] | MFENCE | MOV [z],$2 ;
 MOV [z],$1 | MOV [z],$2 | MOV [x],$3 | MOV [y],$2 | MOV [x],$3 | MOV EAX,[y] | MOV [z],$1 | MOV [x],$1 ;
 MOV [x],$3 | XCHG [x],EDX | MOV [y],$1 | MOV EAX,[y] | MOV [z],$2 | XCHG [z],EDX | MOV EAX,[w] | MOV [z],$3 ;
 MOV EBX,[w] | MOV [z],$2 | MOV [w],$2 | MOV [w],$1 | MOV [x],$1 | MOV EBX,[y] | MOV [w],$2 | MOV EBX,[y] ;
 MOV ECX,[y] | MOV ECX,[x] | MOV [y],$3 | MOV [y],$1 | MOV EBX,[y] | MOV ECX,[y] | MOV EBX,[x] | MOV [y],$2 ;
exists (0:ECX=0 /\\ 1:ECX=1 /\\ 2:EBX=0 /\\ 3:EAX=2 /\\ x=1)
'''
OPENED = """(() => {
  const { cycle } = sheet, picture = cycle.picture.querySelector('svg'), box = cycle.picture.getBoundingClientRect();
  return { shown: cycle.shown, count: document.querySelector('.cycle .buttons span').textContent, faint: document.querySelectorAll('.cycle .later').length,
    first: cycle.cycle[0].from, fits: document.querySelector('.stepping label input').checked, isWhole: box.height <= innerHeight,
    letters: 13 * picture.getBoundingClientRect().width / picture.viewBox.baseVal.width };
})()"""
FAINT = """(() => {
  const light = colour => [0.2126, 0.7152, 0.0722].reduce((sum, part, at) => sum + part * ((colour[at] + 0.055) / 1.055) ** 2.4, 0);
  const text = document.querySelector('.cycle [data-letters].later text'), canvas = new OffscreenCanvas(1, 1).getContext('2d');
  const seen = fill => { canvas.fillStyle = fill; canvas.fillRect(0, 0, 1, 1); return [...canvas.getImageData(0, 0, 1, 1).data].slice(0, 3).map(each => each / 255); };
  const [ink, chip] = [text, text.previousElementSibling].map(each => light(seen(getComputedStyle(each).fill))).sort();
  return (chip + 0.05) / (ink + 0.05);
})()"""


def opened_row(bench):
    """A picture of many arrows opens with none faint, and fits the screen where its letters stay large enough. It begins with what is asked for, in a run of sequential
    consistency where there is one. Each step brings its arrow into sight, and faint letters can be read."""
    bench.open_fresh(width=1280)
    bench.window.resize(1280, 500)
    bench.fill("test", BIG)
    bench.value("askWhy()")
    bench.wait("!bench.task && document.querySelector('.reason .drawn-part')")
    told, count = bench.value(OPENED), bench.value("sheet.cycle.cycle.length")
    faults = differs("at first", [told["shown"], told["count"], told["faint"], told["fits"], told["isWhole"]], [0, "%d arrows" % count, 0, True, True])
    faults += [] if told["letters"] >= 9 and told["first"].startswith("P0:7 R") else ["letters and the first arrow: %s" % told]
    faults += [] if "In the run shown here no load passes a store." in bench.text(".sequential") else ["it says " + bench.text(".sequential")]
    for step in range(1, count + 1):
        bench.value("document.querySelector('[data-edges=next]').click()")
        seen = "(({ top, bottom }) => top >= 0 && bottom <= innerHeight)(document.querySelector('.cycle [data-letters].now').getBoundingClientRect())"
        faults += differs("step %d" % step, bench.value("[%s, document.querySelector('.cycle .buttons span').textContent]" % seen), [True, "Arrow %d of %d" % (step, count)])
        faults += [] if count == 1 or bench.value(FAINT) >= 3 else ["faint letters have a contrast of %.1f" % bench.value(FAINT)]
    bench.value("document.querySelector('[data-edges=next]').click()")
    faults += differs("the last step", bench.value("document.querySelector('.cycle .buttons span').textContent"), "All %d arrows" % count)
    bench.window.resize(1280, 800)
    return faults + safety(bench)


FENCED = """X86 fenced
{ }
 P0          | P1          | P2          ;
 MOV [x],$1  | MOV [y],$1  | MOV EAX,[x] ;
 MFENCE      | MFENCE      | MOV EBX,[y] ;
 MOV EAX,[y] | MOV EAX,[x] |             ;
exists (2:EAX=1 /\\ 0:EAX=0 /\\ 2:EBX=%d /\\ 1:EAX=0)
"""


def enough_row(bench):
    """Why it can't be names the words that are enough, those of the cycle first; where all are needed it says nothing of it. Keys ask for outcomes and why, and
    Ctrl and Enter what was asked last, which stands over the test."""
    bench.open_fresh()
    faults = []
    for word in (0, 1):
        bench.fill("test", FENCED % word)
        bench.value("askWhy()")
        bench.wait("!bench.task && document.querySelector('.cycle')")
        faults += differs("enough", bench.text(".reason > p:nth-of-type(2)"), "0 in P0's EAX and 0 in P1's EAX are enough for that.")
    bench.load(reasons.text_of("SB+mfences"), "")
    key = "document.body.dispatchEvent(new KeyboardEvent('keydown', { key: '%s', ctrlKey: %s, bubbles: true })), [currentCommand(), byId('enter-asks').textContent]"
    for name, is_ctrl, told in (("w", "false", ["why", "Ctrl+Enter: Why can or can't it be? · Esc leaves the text"]), ("o", "false", ["outcomes", "Ctrl+Enter: Find all outcomes · Esc leaves the text"]), ("Enter", "true", ["outcomes", "Ctrl+Enter: Find all outcomes · Esc leaves the text"])):
        faults += differs("key " + name, bench.value(key % (name, is_ctrl)), told)
        faults += differs("under the test", bench.value(ASKS), ["Find all outcomes", "Why can or can't it be?"])
        bench.wait("!bench.task && document.querySelector('#states .answer-title')")
        if name == "w":
            faults += differs("where all are needed", "enough" in bench.text(".reason"), False)
        if name == "o":
            bench.value("backToRun()")
    return faults + safety(bench)


ASKS = """[...document.querySelectorAll('#begin, #asks-here > *')].filter(each => !each.hidden).sort((one, other) => Number(getComputedStyle(one).order) - Number(getComputedStyle(other).order)).map(each => each.textContent)"""
MOVED = "window.moved = []; Element.prototype.animate = function (frames) { moved.push([this.textContent, frames[0].transform !== frames[1].transform]); return { finished: Promise.resolve() }; }; true"


SHEET = """(() => {
  const boxOf = name => document.querySelector(`.reason ${name}`).getBoundingClientRect(), [figure, list, legend, run] = ['figure', '.edges', '.relations', '[data-choices]'].map(boxOf);
  const [place, told] = ['.pictured-cycle', '.told-edges'].map(boxOf), size = each => parseFloat(getComputedStyle(document.querySelector(`.reason ${each}`)).fontSize);
  return { isBeside: list.left >= figure.right && Math.abs(list.top - figure.top) < 12, hole: Math.abs(place.bottom - told.bottom) / (Math.max(place.bottom, told.bottom) - figure.top),
    isSplit: list.top >= figure.bottom && legend.left >= list.right && Math.abs(legend.top - list.top) < 12,
    isBelow: list.top >= figure.bottom && legend.top >= list.bottom, isLarge: size('[role=status] > strong') > 1.1 * size('.passing'), isRunBelow: run.top >= Math.max(figure.bottom, list.bottom),
    isFolded: !document.querySelector('.reason > .in-tables').open };
})()"""


def sheet_row(bench):
    """A sheet begins with its verdict, large; the list stands at the picture's right, from its top, and no column is less than half filled; below a picture that
    is too wide for that the legend stands beside the list, and on a phone all stand below one another. What can be done stands below, the rest in a fold."""
    wanted = {"isLarge": True, "isRunBelow": True, "isFolded": True}
    faults = []
    for width, height in ((1280, 800), (1920, 1080), (390, 844)):
        bench.open_fresh(width=width)
        bench.window.resize(width, height)
        for name in ("SB", "R", "3.SB"):
            bench.fill("test", reasons.text_of(name))
            bench.value("askWhy()")
            bench.wait("!bench.task && document.querySelector('.reason figure') && document.querySelector('.reason [data-choices]')")
            bench.value("new Promise(done => setTimeout(done, 300))")  # an edit asks again, too
            bench.wait("!bench.task && document.querySelector('.reason [data-choices]')")
            found = bench.value(SHEET)
            faults += differs("%s at %d" % (name, width), {each: found[each] for each in wanted}, wanted)
            is_right = found["isBelow"] if width == 390 else found["isSplit"] if (name, width) == ("3.SB", 1280) else found["isBeside"] and found["hole"] < 0.5
            faults += [] if is_right else ["%s at %d: %s" % (name, width, found)]
            bench.value("backToRun()")
    bench.window.resize(1280, 800)
    return faults + safety(bench)


PICKED = "[sheet.cycle.cycle.length, sheet.cycle.cycle.every(%s), document.querySelectorAll('.pick[aria-pressed=true]').length]"


def picked_row(bench):
    """Of more arrows than one can read those are drawn that somebody picks by core and by location; at first none is picked."""
    bench.open_fresh(width=1280)
    bench.fill("test", BIG)
    bench.value("askWhy()")
    bench.wait("!bench.task && document.querySelector('.reason .drawn-part')")
    few, every = bench.value("[sheet.cycle.cycle.length, Number(/of (\\d+) arrows/.exec(document.querySelector('.picks').textContent)[1])]")
    faults = differs("at first", bench.value(PICKED % "() => true")[2], 0) + ([] if few <= 24 < every else ["of %d arrows %d are drawn" % (every, few)])
    faults += differs("no box draws all", "Draw all" in bench.text(".picks"), False)
    press = "[...document.querySelectorAll('.pick')].find(each => each.textContent === '%s').click(), %s"
    at_core, at_both = "({ from, to }) => [from, to].some(each => each.startsWith('P2'))", "({ from, to }) => [from, to].some(each => each.startsWith('P2')) && / y/.test(from)"
    core, both, left = (bench.value(press % (name, PICKED % form)) for name, form in (("P2", at_core), ("[y]", at_both), ("P2", "({ to }) => / y/.test(to)")))
    faults += differs("picked", [core[1:], both[1:], left[1:]], [[True, 1], [True, 2], [True, 1]]) + ([] if 0 < both[0] < core[0] < every else ["%s of %d arrows" % ([core, both], every)])
    faults += differs("what is said", bench.text(".picks span"), "Drawn are %d of %d arrows, those at what is picked. Program order that TSO keeps has none." % (left[0], every))
    faults += differs("none again", bench.value(press % ("[y]", PICKED % "() => true")), [few, True, 0])
    return faults + safety(bench)


def ring(size):
    """Two rings of SB, of 4 cores and of the rest, whose condition asks for each load."""
    cores, last = range(size), size - 4
    after = [(core + 1) % 4 if core < 4 else 4 + (core - 3) % last for core in cores]
    rows = [" | ".join("P%d" % core for core in cores), " | ".join("MOV [%s],$1" % "abcdefgh"[core] for core in cores), " | ".join("MOV EAX,[%s]" % "abcdefgh"[core] for core in after)]
    return "X86 RING\n{ }\n%s\nexists (%s)\n" % ("\n".join(row + " ;" for row in rows), " /\\ ".join("%d:EAX=0" % core for core in cores))


def many_terms_row(bench):
    """A condition of many terms isn't a heading: it stands below it as it is written. Of more arrows than a few those of one cycle are drawn first, and all by one press. A hint of a limit has a line for
    each sentence."""
    bench.open_fresh(width=1280)
    bench.fill("test", ring(8))
    bench.value("askWhy()")
    bench.wait("!bench.task && document.querySelector('.reason .drawn-part')")
    said = "[...document.querySelectorAll('#states [role=status] > strong, #states .condition')].map(each => each.textContent)"
    faults = differs("why", bench.value(said), ["Yes: a run ends so.", "exists (%s)" % " /\\ ".join("%d:EAX=0" % core for core in range(8))])
    faults += differs("the task", bench.value("taskSentence('', readTest(inputOf('why')).proposition, 'exists', [])"), "End as the condition asks, with 8 values.")
    drawn = "[sheet.cycle.cycle.length, sheet.cycle.closed]"
    faults += differs("arrows", [bench.value(drawn), bench.value("document.querySelector('.pick[value=P]').click(), " + drawn)], [[8, 8], [12, 0]])
    faults += differs("code names, where words are enough", bench.value("/P.:/.test(document.querySelector('.reason').innerText)"), False)
    hint = "hint: the machine can reach more than 1000000 states, the limit of --states: raise it; tso why needs no states\nhint: run these: " + " ".join(["0s"] * 20)
    lines = ["The machine can reach more than 1,000,000 states, the limit of “Limit of states”: raise it.", "“Why” needs no states.", "Run these: " + "0s " * 12 + "…"]
    return faults + differs("a limit", bench.said(hint).split("\n"), lines) + safety(bench)


LED = """(() => {
  const { top, bottom } = document.querySelector('.reason figure').getBoundingClientRect(), { isNarrow } = sheet.cycle, chips = [...document.querySelectorAll('.reason .chip')].map(each => each.getBoundingClientRect());
  const isClear = chips.every((one, at) => chips.slice(0, at).every(other => one.right < other.left || other.right < one.left || one.bottom < other.top || other.bottom < one.top));
  return [bottom <= innerHeight && top >= 0, parseFloat(getComputedStyle(document.querySelector('.reason .edge text')).fontSize) * chips[0].height / ROUTES.chip >= 11, isClear];
})()"""

BESIDE = """(() => {
  const boxOf = each => each.getBoundingClientRect(), [figure, bar, passing] = ['figure', '.stepping', '.passing'].map(each => boxOf(document.querySelector('.reason ' + each)));
  const lines = [...document.querySelectorAll('.reason .lane')].map(each => boxOf(each).right), chips = [...document.querySelectorAll('.reason .chip')].map(boxOf);
  return [bar.right <= figure.left && bar.top < figure.bottom, !chips.some(({ left, right }) => lines.some(line => left < line && line < right)), passing.bottom <= innerHeight];
})()"""


def taught_row(bench):
    """In a lesson the picture of why is in sight, on a phone by \u201cNext arrow\u201d; there its letters are large enough, and apart. An arrow is marked while the list has the focus, and no longer; what is
    saved has all arrows alike."""
    faults = []
    for width, height in ((1280, 800), (390, 844)):
        bench.open_fresh(width=width)
        bench.window.resize(width, height)
        bench.value("beginLesson('fences'); enterStep(9); askWhy()")
        bench.wait("!bench.task && document.querySelector('.reason figure')")
        bench.value("document.querySelector('[data-edges=next]').click()")
        faults += differs("at %d" % width, bench.value(LED), [True, True, True])
    bench.window.resize(1280, 800)
    bench.open_fresh(width=1280)
    bench.value("beginLesson('fences', 23); showInLesson()")
    bench.wait("!bench.task && document.querySelector('.reason figure')")
    faults += differs("where it can be: words beside it, no letters on a line, all in sight", bench.value(BESIDE), [True, True, True])
    bench.open_fresh(width=1280)
    bench.value("askWhy()")
    bench.wait("!bench.task && document.querySelector('.reason .edges')")
    pointed = "document.querySelectorAll('.reason .pointed').length"
    bench.value("document.querySelector('.edges li').focus()")
    faults += differs("with the focus", bench.value(pointed), 3)
    faults += differs("saved", bench.value("(() => { let found; withWholeCycle(() => { found = %s; }); return found; })()" % pointed), 0)
    bench.value("document.querySelector('.edges li:last-child').focus(), document.querySelector('.reason .tools select').focus()")
    return faults + differs("without it", bench.value(pointed), 0) + safety(bench)


WIDE_RING = """X86 wide
{ }
 P0 | P1 | P2 | P3 | P4 | P5 | P6 | P7 ;
 MOV [a],$1 | MOV [b],$1 | MOV [c],$1 | MOV [d],$1 | MOV [e],$1 | MOV EAX,[e] | MOV [f],$1 | MOV EAX,[f] ;
 MOV EAX,[b] | MOV EAX,[c] | MOV EAX,[d] | MOV EAX,[a] | MOV [e],$2 | MOV EBX,[e] | MOV [f],$2 | MOV EBX,[f] ;
exists (0:EAX=0 /\\ 1:EAX=0 /\\ 2:EAX=0 /\\ 3:EAX=0 /\\ 5:EAX=1 /\\ 5:EBX=2)
"""


def claims_row(bench):
    """What a test claims is judged first, by why and by all outcomes; the advice on fences says where other loads may pass."""
    said = {"SB ~exists": ["The claim is false: both loads read 0 in a run.", "The claim is false: both loads read 0 in 1 of 4 outcomes under TSO.", "is-no"],
            "SB+mfences ~exists": ["The claim holds: both loads read 0 in no run.", "The claim holds: both loads read 0 in none of 3 outcomes under TSO.", "is-yes"],
            "SB forall": ["The claim is false: not each run ends with 0 in P0's EAX and 0 in P1's EAX.", "The claim is false: both loads read 0 in only 1 of 4 outcomes under TSO.", "is-no"]}
    faults = []
    bench.open_fresh()
    for case, wanted in said.items():
        name, quantifier = case.split()
        bench.fill("test", reasons.text_of(name).replace("exists", quantifier))
        got = []
        for command in ("why", "outcomes"):
            bench.value("ask('%s')" % command)
            bench.wait("!bench.task && document.querySelector('#states %s')" % {"why": ".reason", "outcomes": ".states-sheet"}[command])
            got.append(bench.text("#states > [role=status] > strong, .reason > [role=status] > strong"))
        faults += differs(case, got + [bench.value("document.querySelector('#states [role=status] > strong').classList[0]")], wanted)
    advice = "MFENCE or a locked instruction between the store and the load would keep their order."
    for test, said in ((ring(4), "P3 read a before memory saw its store to d. " + advice), (WIDE_RING, advice + " In another run that ends so, other loads may pass.")):
        bench.fill("test", test)
        bench.value("askWhy()")
        bench.wait("!bench.task && document.querySelector('.how-read .passing')")
        faults += [] if bench.text(".how-read .passing").endswith(said) else [bench.text(".how-read .passing")]
    return faults + safety(bench)


STATUSES = """(async () => {
  Object.assign(possible, { test: null, refuted: null });
  const task = beginTask(bench.bytes, questionsOf('outcomes', { command: 'outcomes', depth: 32, states: %d }), inputOf('outcomes'));
  return (await task.answers).map(each => each && each.status);
})()"""


def limit_row(bench):
    """Outcomes that don't come to their end begin with what `why` says; then nothing is searched without store buffers. Where the test has no condition, the final values
    of a reason have registers; and an answer as text says which of its words the picture hasn't."""
    bench.open_fresh()
    faults = []
    for name, said in (("SB+mfences", "No: both loads read 0 in no run."), ("SB", "Yes: both loads read 0 in a run.")):
        bench.fill("test", reasons.text_of(name))
        faults += differs("asked", [bench.value(STATUSES % states) for states in (5, 1000)], [[3, None, 0], [0, 0, None]])
        bench.value("settingOf('states').value = 5; findOutcomes()")
        bench.wait("!bench.task && document.querySelector('.ways-on')")
        faults += differs("the verdict", bench.text("#states > [role=status] > strong"), said)
        bench.value("settingOf('states').value = 1000000; backToRun()")
    bench.fill("test", reasons.PLAIN)
    bench.value("askWhy()")
    bench.wait("!bench.task && document.querySelector('.reason')")
    values = bench.value("[...document.querySelectorAll('.reason table:last-of-type')].at(-1).textContent")
    faults += [] if "P0's EAX" in values and "x" in values else ["final values: " + values]
    bench.fill("test", reasons.text_of("SB+xchgs"))
    bench.value("askWhy()")
    bench.wait("!bench.task && document.querySelector('.reason .cycle')")
    bench.value("byId('report-part').open = true; byId('as-printed').click(); showFormat()")
    bench.wait("byId('report').textContent.includes('implied')")
    bench.wait("byId('report-note').textContent.includes('“implied” is “lock” in the picture')")
    return faults + safety(bench)


def motion_row(bench):
    """When a run is played a drain, a forward and a request to the bus move; where less motion is preferred nothing does."""
    wanted = {"reduce": [], "no-preference": [["GetM x", True], ["x=1", True]]}
    faults = []
    for preferred, moves in wanted.items():
        bench.window.call("Emulation.setEmulatedMedia", features=[{"name": "prefers-reduced-motion", "value": preferred}])
        bench.open_fresh()
        bench.value(MOVED)
        bench.fill("test", "X86 move\n{ }\n P0 ;\n MOV [x],$1 ;\n MOV EAX,[x] ;\n")
        bench.value("putChoices('0s 0s 0d'); answerNow(true); wantCaches(true); setSpeed(6); play()")
        bench.wait("timers.playing === null")
        told = bench.value("moved")
        faults += [] if all(move in told for move in moves) and (moves or not told) else ["%s: moved %s, and not %s" % (preferred, told, moves)]
        faults += differs("left over", bench.value("document.querySelectorAll('.token').length"), 0)
    bench.window.call("Emulation.setEmulatedMedia", features=[])
    return faults + safety(bench)


def weights_row(bench):
    """Of the buttons two levels stand out: few are the main ones, and most are quiet."""
    bench.open_fresh()
    counts = bench.value("['.main', '.quiet'].map(level => [...document.querySelectorAll('button' + level)].filter(each => each.getClientRects().length > 0).length)")
    return ([] if 1 <= counts[0] <= 4 and counts[1] >= 6 else ["main and quiet buttons: %s" % counts]) + safety(bench)


def rows(page, folder):
    bench = Driver(page)
    return [("pictures that are clear", lambda: clear_row(bench, folder)), ("cores and arrows left out", lambda: left_out_row(bench)), ("how a picture of many arrows opens", lambda: opened_row(bench)), ("the words that are enough", lambda: enough_row(bench)),
            ("a sheet of why, its parts", lambda: sheet_row(bench)), ("arrows that are picked", lambda: picked_row(bench)), ("a condition of many terms", lambda: many_terms_row(bench)), ("why in a lesson", lambda: taught_row(bench)), ("claims, judged", lambda: claims_row(bench)), ("outcomes that meet their limit, and what why says", lambda: limit_row(bench)),
            ("what moves", lambda: motion_row(bench)), ("weights of buttons", lambda: weights_row(bench))]
