"""Rows for the ways of arrows in the pictures of `why`: no two of them look like one."""
import drawn_edges
import reasons
from bench import differs, safety
from driver import Driver

MIXED = """X86 mixed
{ }
 P0 | P1 | P2 | P3 | P4 | P5 | P6 | P7 ;
 MOV [a],$1 | MOV [b],$1 | MOV [c],$1 | MOV [d],$1 | MOV [e],$1 | MOV [f],$1 | MOV EAX,[e] | MOV EAX,[f] ;
 MOV EAX,[b] | MOV EAX,[c] | MOV EAX,[d] | MOV EAX,[a] | | | MOV EBX,[f] | MOV EBX,[e] ;
exists (0:EAX=0 /\\ 1:EAX=0 /\\ 2:EAX=0 /\\ 3:EAX=0 /\\ 6:EAX=1 /\\ 7:EAX=1)
"""

# The longest stretch of two ways within 6 pixels of one another.
SHARED = """Math.max(...[...document.querySelectorAll('.reason [data-edge] path')].map(way => Array.from({ length: way.getTotalLength() / 3 }, (_, at) => way.getPointAtLength(3 * at))).flatMap((way, at, all) =>
  all.slice(at + 1).map(other => way.reduce(([most, now], { x, y }) => (near => [Math.max(most, near), near])(other.some(point => Math.hypot(point.x - x, point.y - y) < 6) ? now + 3 : 0), [0, 0])[0])))"""
CROSSING = 30  # pixels


def apart_row(bench):
    """No two ways share a stretch, which is longer than a crossing: also where all arrows are drawn."""
    bench.open_fresh(width=1280)
    faults = []
    for name, test in [(name, reasons.text_of(name)) for name in ("IRIW", "3.SB", "SB")] + [("ring of %d" % size, drawn_edges.ring(size)) for size in (4, 6, 8)] + [("mixed", MIXED), ("wide", drawn_edges.WIDE_RING), ("fences", drawn_edges.RING)]:
        bench.fill("test", test)
        bench.value("askWhy()")
        bench.wait("!bench.task && document.querySelector('.reason [data-edge]')")
        bench.value("document.querySelector('.pick[value=P]')?.click()")
        faults += [] if bench.value(SHARED) <= CROSSING else ["%s: %d pixels" % (name, bench.value(SHARED))]
    return faults + safety(bench)


def twice(register):
    """Eight cores that load a neighbour's location twice, with a fence or a locked instruction between; the condition is of one of these registers."""
    lines = ["MOV [a%d],$1", "MOV EAX,[a%d]", "MOV [b%d],$1", "MOV ECX,[b%d]", "MFENCE", "MOV EDX,[a%d]"]
    steps, cores = (0, 1, 0, 3, 0, 1), range(8)
    rows = [" | ".join("LOCK ADD [b0],$1" if line == "MFENCE" and core % 2 else line % ((core + step) % 8) if "%" in line else line for core in cores) for line, step in zip(lines, steps)]
    return "X86 twice\n{ }\n%s ;\n%s\nexists (%s)\n" % (" | ".join("P%d" % core for core in cores), "\n".join(row + " ;" for row in rows), " /\\ ".join("%d:%s=0" % (core, register) for core in cores))


OTHER = "X86 other\n{ }\n P0 | P1 ;\n MOV [x],$1 | MOV [y],$1 ;\n MOV EAX,[y] | MOV EBX,[x] ;\n | MOV [z],EBX ;\nexists (0:EAX=0 /\\ z=0)\n"
FITS = "(({ scrollWidth, clientWidth, firstChild }) => [scrollWidth <= clientWidth, 13 * clientWidth / firstChild.viewBox.baseVal.width >= 10])(sheet.cycle.picture)"


def asked_row(bench):
    """A cycle of eight cores is of the loads that are asked for alone, with code names where a program loads a location twice, and where it has few rows all of
    it is in sight. What is asked for stands once, and of many loads that pass stores the first two. A cycle of other loads says so. What was written as LFENCE
    stands so."""
    bench.open_fresh(width=1280)
    bench.window.resize(1280, 800)
    reads = "fr P0's load of a1 (P0:%d) read the older value, so it came before P1's store a1=1."
    told = "[sheet.cycle.closed, sheet.cycle.sentences.children[1].textContent, [...document.querySelectorAll('.reason .step-given')].filter(each => each.getClientRects().length > 0).length, document.querySelectorAll('.passing details').length, %s]" % FITS
    faults = []
    for register, wanted in (("EAX", [16, reads % 1, 0, 1, [True, True]]), ("EDX", [20, reads % 5, 0, 0, [False, False]])):
        bench.fill("test", twice(register))
        bench.value("askWhy()")
        bench.wait("!bench.task && document.querySelector('.reason [data-edge]')")
        faults += differs("of " + register, bench.value(told), wanted)
    bench.fill("test", OTHER)
    bench.value("askWhy()")
    bench.wait("!bench.task && document.querySelector('.reason [data-edge]')")
    faults += differs("a cycle of other loads", "So this run needs store buffers, by other loads than those asked for: without" in bench.text(".told-edges"), True)
    bench.fill("test", reasons.text_of("SB").replace(" MOV EAX,[y]", " LFENCE | SFENCE ;\n MOV EAX,[y]", 1))
    bench.value("askWhy()")
    bench.wait("!bench.task && document.querySelector('.reason [data-edge]')")
    faults += differs("as written", bench.value("[...document.querySelectorAll('.reason figure text')].map(each => each.textContent).filter(each => each.includes('FENCE'))"), ["1  LFENCE", "1  SFENCE"])
    faults += differs("that they do nothing", " LFENCE has no effect here. SFENCE has no effect here." in bench.text(".relations"), True)
    return faults + safety(bench)


def folded_row(bench):
    """In a picture of eight cores instructions that no arrow touches are one line, but for a fence that one goes by; what is drawn can be read."""
    spare = "MOV ESI,$1", "MOV ESI,$2", "MFENCE", "MOV ESI,$3", "MOV ESI,$4", "MOV ESI,$5"
    columns = [("P%d" % core, "MOV [a%d],$1" % core, *spare, "MOV EAX,[a%d]" % ((core + 1) % 8)) for core in range(8)]
    rows = "".join(" %s ;\n" % " | ".join(row) for row in zip(*columns))
    bench.open_fresh(width=1280)
    bench.window.resize(1280, 800)
    bench.fill("test", "X86 ring\n{ }\n%sexists (%s)\n" % (rows, " /\\ ".join("%d:EAX=0" % core for core in range(8))))
    bench.value("askWhy()")
    bench.wait("!bench.task && document.querySelector('.reason [data-edge]')")
    said = "[...sheet.cycle.picture.querySelectorAll('.faint, .fence text')].map(each => each.textContent).filter(each => /more|FENCE|ESI/.test(each))"
    faults = differs("folded", bench.value(said), 8 * ["… 2 more", "3  MFENCE", "… 3 more"])
    size = "Math.min(...[...sheet.cycle.picture.querySelectorAll('text')].map(each => Math.round(parseFloat(getComputedStyle(each).fontSize) * each.getCTM().a)))"
    whole = "sheet.cycle.picture.scrollWidth <= sheet.cycle.picture.clientWidth"
    return faults + differs("its type", bench.value("[%s >= 12, %s]" % (size, whole)), [True, True]) + safety(bench)


RING = "X86 ring\n{ }\n%s ;\nexists (%s)\n"
# Whether each letter lies within the picture and upon no box, and each instruction stands on one line.
LABELS = """(({ width, height }, chips, boxes) => [chips.every(chip => chip.x >= 0 && chip.x + chip.width <= width && boxes.every(box => !overlap(chip, box))),
  !document.querySelector('.reason .picture').textContent.match(/MOV(?! )/)])(document.querySelector('.reason .picture').viewBox.baseVal,
  ...['.chip', '[data-event] rect'].map(name => [...document.querySelectorAll('.reason ' + name)].map(part => part.getBBox())))"""
RUN = """(() => { const [bar, memory, frame] = ['#stepper', '#machines .below', '#frame'].map(name => document.querySelector(name).getBoundingClientRect());
  return [memory.top >= bar.bottom, frame.bottom <= innerHeight]; })()"""


def fenced(size):
    """A ring of SB with fences but one."""
    lines = ["P%d", "MOV [%s],$1", "MFENCE", "MOV EAX,[%s]"]
    cells = [[lines[0] % core, lines[1] % "abcdefgh"[core], lines[2] if core else "", lines[3] % "abcdefgh"[(core + 1) % size]] for core in range(size)]
    return RING % (" ;\n".join(" | ".join(row) for row in zip(*cells)), " /\\ ".join("%d:EAX=0" % core for core in range(size)))


def labels_row(bench):
    """At each width the letters of arrows stay in the frame and off boxes, and no instruction breaks where lanes have room. What it runs is in sight below the bar: memory and the last row. The picks are one stop of Tab."""
    faults = []
    for width, height in ((1280, 800), (1920, 1080), (390, 844)):
        for size in (2, 4, 8) if width > 390 else (2,):
            bench.open_fresh(width=width)
            bench.window.resize(width, height, mobile=width < 500)
            bench.fill("test", fenced(size))
            bench.value("askWhy()")
            bench.wait("!bench.task && document.querySelector('.reason [data-edge]')")
            faults += differs("%d cores at %d" % (size, width), bench.value(LABELS), [True, True])
            if size == 8:
                bench.window.click(".of-run [data-choices]")
                faults += differs("the run at %d" % width, bench.value(RUN), [True, True])
    bench.open_fresh(width=1280)
    bench.fill("test", drawn_edges.ring(8))
    bench.value("askWhy()")
    bench.wait("!bench.task && document.querySelector('.reason .pick')")
    stops = "[...document.querySelectorAll('.pick')].flatMap(({ tabIndex }, at) => (tabIndex === 0 ? [at] : []))"
    faults = faults + differs("closed at first", bench.value("document.querySelector('.pick').checkVisibility()"), False)
    bench.window.click(".picks summary")
    bench.value("document.querySelector('.pick').focus()")
    for key, stop in (("ArrowRight", 1), ("ArrowLeft", 0), ("ArrowLeft", bench.value("document.querySelectorAll('.pick').length - 1"))):
        bench.window.press(key)
        faults += differs(key, bench.value("[sheet.cycle.shown, [...document.querySelectorAll('.pick')].indexOf(document.activeElement), %s]" % stops), [0, stop, [stop]])
    return faults + safety(bench)


EIGHT = ("X86 eight\n{ }\n %s ;\n" % " | ".join("P%d" % core for core in range(8)) + " %s ;\n" % " | ".join("MOV [a%d],$1" % core for core in range(8))
         + " %s ;\n" % " | ".join("MOV EAX,[a%d]" % ((core + 1) % 8) for core in range(8)) + "exists (%s)\n" % " /\\ ".join("%d:EAX=0" % core for core in range(8)))
ENDS = "[...document.querySelectorAll('.reason .edge-unkept[data-edge] path')].map(each => ((start, middle) => Math.sign(middle.x - start.x))(each.getPointAtLength(0), each.getPointAtLength(each.getTotalLength() / 2)))"


def eight_row(bench):
    """In a ring of eight cores the arrows within a core stand at the side at which no other begins. No register has a name of C whose lines are out of sight. The head of an answer leads to its text."""
    bench.open_fresh(width=1280)
    bench.fill("test", EIGHT)
    seen = "[...document.querySelectorAll('.in-c')].filter(each => each.checkVisibility()).length"
    faults = differs("names of C", bench.value(seen), 0)
    bench.value("askWhy()")
    bench.wait("!bench.task && document.querySelector('.reason [data-edge]')")
    faults += differs("sides", bench.value(ENDS), [-1] * 7 + [1]) + ([] if bench.value("document.querySelector('.reason figure').getBoundingClientRect().top + scrollY") < 330 else ["the picture is too low"])
    bench.window.click("#to-report")
    faults += differs("its text", bench.value("[document.activeElement.id, byId('report-part').open, byId('to-report').textContent]"), ["as-printed", True, "As text, JSON"])
    bench.fill("test", drawn_edges.ring(6))
    bench.value("findOutcomes()")
    bench.wait("!bench.task && document.querySelector('.alone')")
    faults += differs("TSO alone", bench.value("document.querySelector('.alone').click(), [document.querySelector('.alone').parentElement.textContent, document.querySelector('.filtered').textContent, byId('to-report').textContent]"),
                      [" TSO alone (19)", "19 of 64 outcomes", "As text, JSON, herd7"])
    met = "metSentence({ states: times(%d, () => ({ holds: false })), verdict: null, unfinished: { states: 5000 } }, false).match(/It met [^.]*/)[0]"
    faults += differs("what was met", [bench.value(met % many) for many in (999, 1000)], ["It met 999 of the outcomes", "It met 1,000 of the outcomes, the most that it follows"])
    return faults + safety(bench)


def rows(page, _):
    bench = Driver(page)
    return [("why of eight cores, what no arrow touches", lambda: folded_row(bench)), ("ways of arrows that share no stretch", lambda: apart_row(bench)), ("why of eight cores, what is asked for", lambda: asked_row(bench)), ("why, letters in the frame", lambda: labels_row(bench)), ("eight cores, at their side and from the head", lambda: eight_row(bench))]
