"""Rows for everyone: what WCAG 2.2 AA asks and a script can see. By hand were looked at: the order of headings, words of buttons alone, motion."""
import os

from bench import CONTRAST, differs, safety
from driver import LARGE, Driver
from teaching import is_in_sight, press

FINGER, SMALLEST = 44, 24  # pixels
# What has the focus and lies, wholly or in part, under what stands still: the bar, or the words of long work.
UNDER = """(() => {
  const found = document.activeElement, bar = byId('stepper'), place = found.getBoundingClientRect(), at = bar.getBoundingClientRect();
  const covers = getComputedStyle(bar).position === 'sticky' && !bar.contains(found) && place.height > 0 && place.bottom > at.top + 1 && place.top < at.bottom - 1 && found.closest('main');
  const stuck = covers && (at.top <= 0 || at.bottom >= innerHeight);
  return stuck ? [(found.id || found.dataset.choice || found.className || found.tagName) + ' lies under the bar'] : [];
})()"""
TARGETS = """(least => [...document.querySelectorAll('button, select, summary, input:not([type=radio], [type=checkbox])')].filter(each => each.getClientRects().length > 0 && getComputedStyle(each).opacity !== '0').filter(each => {
  const { height, width } = each.getBoundingClientRect();
  return height < least - 0.5 || width < Math.min(least, 44) - 0.5;
}).map(each => `${each.tagName}#${each.id} ${each.textContent.slice(0, 20)} is ${Math.round(each.getBoundingClientRect().width)} by ${Math.round(each.getBoundingClientRect().height)}`))(%d)"""


def tab(bench, shift=False):
    for kind in ("rawKeyDown", "keyUp"):
        bench.window.call("Input.dispatchKeyEvent", type=kind, key="Tab", code="Tab", windowsVirtualKeyCode=9, modifiers=8 if shift else 0)


def under_row(bench):
    """Whatever gets the focus by the tab key, forward and back, lies under nothing that stands still: wide, narrow, and low windows."""
    faults = []
    for width, height in ((1280, 500), (390, 844), (1280, 400)):
        bench.open_fresh(width=width)
        bench.window.resize(width, height, mobile=width < 500)
        bench.fill("test", LARGE)
        bench.value("byId('test-part').open = false; byId('legend').open = true; document.querySelector('[data-choice]').focus()")
        for turn in range(50):
            tab(bench)
            faults += bench.value(UNDER)
        for turn in range(40):
            tab(bench, shift=True)
            faults += ["back: " + fault for fault in bench.value(UNDER)]
    bench.window.resize(1280, 400)
    return sorted(set(faults)) + differs("on a low screen the bar stands still", bench.value("getComputedStyle(byId('stepper')).position"), "static") + safety(bench)


def focus_row(bench):
    """The focus goes to the answer that was asked for, which is in sight, and its sentence is read with it; to the machine after an example and a run."""
    bench.open_fresh(width=1280)
    bench.window.resize(1280, 720)
    faults = []
    for asked, title in (("#find-outcomes", "All outcomes"), ("#ask-why", "How it can be")):
        press(bench, asked)
        bench.wait("!bench.task && document.querySelector('.answer-title')")
        told = bench.value("(found => [found.textContent, document.getElementById(found.getAttribute('aria-describedby'))?.textContent.length > 20])(document.activeElement)")
        faults += differs("the focus after " + asked, told, [title, True]) + differs("in sight", is_in_sight(bench, ".answer-title"), True)
        press(bench, "#to-run")
    bench.value("findOutcomes()")
    bench.wait("!bench.task && document.querySelector('.states-sheet')")
    press(bench, "#states tr.met [data-choices]")
    named = "document.activeElement.matches('.machine > h3')"
    faults += differs("the focus after Run it", bench.value(named), True)
    bench.value("byId('test-part').open = byId('library').open = true; document.activeElement.blur()")
    press(bench, "[data-file='MP.litmus']")
    faults += differs("the focus after an example", bench.value(named), True)
    faults += differs("live", bench.value("['working', 'task', 'sentence', 'message', 'lesson-words'].filter(id => !byId(id).matches('[role=status], [role=alert], [aria-live]'))"), [])
    return faults + safety(bench)


def targets_row(bench, folder):
    """Targets are 44 pixels high and wide for fingers, and 24 at least for a mouse."""
    faults = []
    for pointer, least in (("coarse", FINGER), ("fine", SMALLEST)):
        is_touch = pointer == "coarse"
        bench.window.call("Emulation.setTouchEmulationEnabled", enabled=is_touch)
        bench.window.call("Emulation.setEmulatedMedia", features=[{"name": "pointer", "value": pointer}, {"name": "hover", "value": "none" if is_touch else "hover"}])
        bench.open_fresh(width=390 if is_touch else 1280)
        bench.value("byId('test-part').open = true; byId('library').open = true; byId('lessons-part').open = true")
        faults += ["%s: %s" % (pointer, fault) for fault in bench.value(TARGETS % least)]
        bench.value("beginLesson('store-buffering'); enterStep(1)")
        faults += ["%s, a lesson: %s" % (pointer, fault) for fault in bench.value(TARGETS % least)]
        bench.window.screenshot(os.path.join(folder, "targets-%s.png" % pointer))
        bench.value("endLesson(); findOutcomes()")
        bench.wait("!bench.task && document.querySelector('.states-sheet')")
        faults += ["%s, outcomes: %s" % (pointer, fault) for fault in bench.value(TARGETS % least)]
        faults += [] if bench.value("matchMedia('(pointer: coarse)').matches") == is_touch else ["the browser has no %s pointer here" % pointer]
    bench.window.call("Emulation.setTouchEmulationEnabled", enabled=False)
    bench.window.call("Emulation.setEmulatedMedia", features=[])
    return faults + safety(bench)


ROLES = ("button", "textbox", "link", "combobox", "slider", "spinbutton", "radio", "checkbox", "searchbox", "image", "table", "figure", "region", "heading")


def names_row(bench):
    """In the browser's tree each control and each heading has a name: at first, in a lesson, at an answer of each kind, and in a lecture."""
    bench.open_fresh()
    faults = []
    acts = ("byId('test-part').open = true", "beginLesson('store-buffering'); enterStep(1)", "endLesson(); putBeside(JSON.stringify(ABREAST))", "findOutcomes()", "askWhy()", "putLecture(true)", "putLecture(false); addToList()")
    for act in acts:
        bench.value(act + "; true")
        bench.wait("!bench.task")
        nodes = [node for node in bench.window.call("Accessibility.getFullAXTree")["nodes"] if not node["ignored"] and node["role"]["value"] in ROLES]
        faults += ["after %s a %s has no name" % (act, node["role"]["value"]) for node in nodes if not node.get("name", {}).get("value")]
        faults += ["after %s only %d parts are told" % (act, len(nodes)) for _ in [0] if len(nodes) < 8]
    return faults + safety(bench)


def contrast_row(bench):
    """All words stand out from their ground, in the light and in the dark: at first, in a lesson, and at answers."""
    faults = []
    for colours in ("light", "dark"):
        bench.window.call("Emulation.setEmulatedMedia", features=[{"name": "prefers-color-scheme", "value": colours}])
        bench.open_fresh()
        look = "(%s)()" % CONTRAST.replace("summary, code'", "summary, code, button:enabled, .slot, .state, dfn, span'")
        for act in ("true", "beginLesson('store-buffering'); enterStep(2)", "makeChoice('0s')", "enterStep(12)", "endLesson(); findOutcomes()", "askWhy()"):
            bench.value(act + "; true")
            bench.wait("!bench.task")
            faults += ["%s, after %s: %s" % (colours, act, fault) for fault in bench.value(look)]
    bench.window.call("Emulation.setEmulatedMedia", features=[])
    return faults + safety(bench)


REFUSED = "X86 a\n{ }\n P0 | P1 ;\n x = 1; | MOV [y],$1 ;\n MOV EAX,[y] | MOV EAX,[x] ;\nexists (0:EAX=0)\n"
EIGHT = "X86 eight\n{ }\n%s" % "".join(" %s ;\n" % " | ".join(cell % core for core in range(8)) for cell in ("P%d", "MOV [a%d],$1", "MOV EAX,[a%d]"))
BAND = """(() => { const line = (Number(byId('test-band').dataset.line) - 1) * parseFloat(getComputedStyle(byId('test')).lineHeight);
  return Math.abs(byId('test-band').getBoundingClientRect().top - byId('test').getBoundingClientRect().top - parseFloat(getComputedStyle(byId('test')).paddingTop) - line) < 1; })()"""


def editor_row(bench):
    """What is refused, and what mends it, comes next after its field. Its band goes with the window, and no line of eight cores is cut where there is room."""
    bench.open_fresh(width=1280)
    bench.value("byId('test-part').open = true")
    bench.fill("test", REFUSED)
    faults = []
    bench.value("byId('test').focus()")
    for wanted in ("Line 4", "write-so", "choices"):
        tab(bench)
        faults += differs("next by Tab", bench.value("document.activeElement.id || document.activeElement.textContent"), wanted)
    faults += differs("code", bench.value("[...byId('plain').querySelectorAll('code')].map(each => each.textContent)"), ["x = 1", "MOV [x],$1", ";"])
    bench.window.resize(1920, 1080)
    bench.wait(BAND)
    bench.fill("test", EIGHT + "exists (0:EAX=0)\n")
    for width in (1280, 1920, 2560):
        bench.window.resize(width, 900)
        bench.wait("byId('test').scrollWidth <= byId('test').clientWidth")
    bench.fill("test", REFUSED.replace("x = 1;", "MFENCE"))
    faults += differs("a narrow test", bench.value("byId('test-part').classList.contains('wide')"), False)
    bench.fill("choices", "0s 9z")
    bench.value("byId('choices').focus()")
    tab(bench)
    faults += differs("after the choices", bench.value("document.activeElement.id"), "remove-choices")
    return faults + safety(bench)


def low_row(bench):
    """Of eight long programs a low window has the next instruction and those around it; no step moves a buffer."""
    bench.open_fresh(width=1280)
    bench.window.resize(1280, 800)
    bench.fill("test", EIGHT + "".join(" %s ;\n" % " | ".join([text] * 8) for text in ["LOCK CMPXCHG [z],ESI"] + ["MOV EBX,[z]"] * 5))
    at = "[...document.querySelectorAll('.buffer')].map(each => Math.round(each.getBoundingClientRect().top + scrollY))"
    bench.wait("document.querySelectorAll('.program.few').length === 8")
    before, faults = bench.value(at), []
    for count, choice in enumerate("0s 0d 0s 0s 0s 0s 0s".split()):
        bench.value("document.querySelector('[data-choice=\"%s\"]').click()" % choice)
        bench.wait("choicesText().trim().split(/\\s+/).length === %d" % (count + 1))
        inside = bench.value("(next => [next.getBoundingClientRect(), next.parentElement.getBoundingClientRect()].map(({ top, bottom }) => [top, bottom]))(document.querySelector('.few [aria-current]'))")
        faults += differs("after " + choice, [bench.value(at) == before, inside[1][0] - 1 <= inside[0][0] and inside[0][1] <= inside[1][1] + 1], [True, True])
    return faults + safety(bench)


def rows(page, folder):
    bench = Driver(page)
    return [
        ("eight cores in a low window", lambda: low_row(bench)),
        ("nothing under the bar", lambda: under_row(bench)),
        ("the focus at an answer", lambda: focus_row(bench)),
        ("targets for fingers", lambda: targets_row(bench, folder)),
        ("names in the tree", lambda: names_row(bench)),
        ("contrast", lambda: contrast_row(bench)),
        ("the editor's room and keys", lambda: editor_row(bench)),
    ]
