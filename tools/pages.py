"""A campaign's page for a browser: one file of HTML, with pictures, and tables that are sorted and filtered there."""
import base64
import hashlib
import html

import means
import verdicts

# What rows may choose, in the order in which a picture names it.
CHOICES = ("program", "model", "protocol", "bus", "shape", "depth")

STYLE = """
:root { color-scheme: light dark; }
body { font: 15px/1.45 system-ui, sans-serif; margin: 2rem auto; max-width: 70rem; padding: 0 1rem; }
details { border-top: 1px solid #8884; padding: .3rem 0; }
summary { cursor: pointer; font-family: ui-monospace, monospace; }
summary b { display: inline-block; min-width: 5.5rem; }
.look b { color: #c33; }
.unjudged b { color: #a70; }
pre { overflow-x: auto; margin: .5rem 0 .5rem 1.2rem; }
table { border-collapse: collapse; margin: .5rem 0 .5rem 1.2rem; font-family: ui-monospace, monospace; }
td, th { padding: .1rem .8rem .1rem 0; text-align: right; font-weight: normal; }
ul { margin: .5rem 0; }
form { display: flex; flex-wrap: wrap; gap: .5rem 1.5rem; margin: 1rem 0; }
form[hidden] { display: none; }
figure { margin: 1rem 0; }
svg { display: block; width: 100%; max-width: 46rem; height: auto; }
text { fill: currentColor; font: 12px system-ui, sans-serif; }
rect { fill: #2f7fc1; }
"""

SCRIPT = """
'use strict';
const rows = [...document.querySelectorAll('details')];
const [form, list, words, rank, order, told] = ['choose', 'rows', 'words', 'rank', 'order', 'told'].map((id) => document.getElementById(id));

// Hides each row that lacks one of the words, or that is judged otherwise than was chosen.
function filter() {
  const wanted = words.value.toLowerCase().split(' ').filter(Boolean);
  for (const row of rows) {
    const text = row.firstElementChild.textContent.toLowerCase();
    row.hidden = (rank.value !== '' && row.className !== rank.value) || !wanted.every((word) => text.includes(word));
  }
  told.textContent = `${rows.filter((row) => !row.hidden).length} of ${rows.length} rows`;
}

// Puts the rows into the order that was chosen: as they came, by their tests' names, or by a number, the greatest first.
function sort() {
  const number = (row) => Number(row.dataset[order.value] ?? -1);
  const by = {'': () => 0, test: (one, other) => (one.dataset.test < other.dataset.test ? -1 : 1)};
  list.append(...[...rows].sort(by[order.value] ?? ((one, other) => number(other) - number(one))));
}

form.hidden = false;
form.addEventListener('submit', (event) => event.preventDefault());
words.addEventListener('input', filter);
rank.addEventListener('change', filter);
order.addEventListener('change', sort);
filter();
"""


def digest_of(text):
    return base64.b64encode(hashlib.sha256(text.encode()).digest()).decode()


# The page loads nothing, and carries nothing out but its own script: that and its own style alone count.
POLICY = ("default-src 'none'; style-src 'sha256-%s'; script-src 'sha256-%s'; base-uri 'none'; form-action 'none'; "
          "require-trusted-types-for 'script'" % (digest_of(STYLE), digest_of(SCRIPT)))

BEGINNING = """<!DOCTYPE html>
<html lang="en">
<head>
<meta charset="utf-8">
"""
TITLE = "\n<title>Campaign: "

PAGE = BEGINNING + """<meta http-equiv="Content-Security-Policy" content="%(policy)s">
<meta name="viewport" content="width=device-width, initial-scale=1">""" + TITLE + """%(command)s</title>
<style>%(style)s</style>
</head>
<body>
<h1>Campaign: %(command)s</h1>
%(totals)s
%(pictures)s
<form id="choose" hidden>
<label>Filter <input id="words" type="search" placeholder="words of a row"></label>
<label>Show <select id="rank"><option value="">all</option><option value="look">to be looked at</option>
<option>unjudged</option><option>same</option></select></label>
<label>Sort by <select id="order"><option value="">what is to be looked at</option><option value="test">name</option>%(orders)s</select></label>
<output id="told"></output>
</form>
<div id="rows">
%(rows)s
</div>
<script>%(script)s</script>
</body>
</html>
"""

# How a row is judged that is neither unjudged nor the same.
LOOK = "look"


def is_page(data):
    """Whether these bytes are a page that a campaign wrote."""
    return data.startswith(BEGINNING.encode()) and TITLE.encode() in data[:1000]


def page_of(command, totals, lines):
    """One file of HTML: totals, pictures, and each row with its test and its states, those that want to be looked at first."""
    told = "\n".join("<p>%s</p>" % html.escape(line) for line in totals.lines())
    names = dict.fromkeys(name for line in lines for name in numbers_of(line))
    orders = "".join("<option>%s</option>" % html.escape(name) for name in names)
    drawn = [name for name in names if name not in ("true", "false")]
    return PAGE % {"policy": POLICY, "style": STYLE, "script": SCRIPT, "command": html.escape(command), "totals": told, "orders": orders,
                   "pictures": "\n".join(picture_of(name, lines) for name in drawn), "rows": "\n".join(map(row_of, lines))}


def numbers_of(line):
    """The numbers of a row by their names: what its caches did, for one run on the average, or how many states there are and of which."""
    members = line.members
    if members.get("cores"):
        return {name: count / members["ended"] for name, count in line.counted().items()}
    found = {"states": len(members["states"])} if "states" in members else {}
    return dict(found, **{name: members[name] for name in ("true", "false", "leaves") if members.get(name) is not None})


def number_text(number):
    return "%d" % number if number == int(number) else "%.3g" % number


# ---- rows

def row_of(line):
    """A row: its test and its states at a click."""
    kind = LOOK if line.wants_a_look() else line.rank
    rank, rest = line.text().split(None, 1)
    parts = ["<ul>%s</ul>" % "".join("<li>%s</li>" % html.escape(why) for why in line.members["why"])] if line.members.get("why") else []
    parts += ["<pre>%s</pre>" % html.escape(line.test)] if line.test else []
    parts += [table_of(line.members["states"])] if line.members.get("states") else []
    parts += [table_of_cores(line.members["cores"])] if line.members.get("cores") else []
    numbers = "".join(' data-%s="%s"' % (name, number_text(number)) for name, number in numbers_of(line).items())
    return '<details class="%s" data-test="%s"%s><summary><b>%s</b> %s</summary>\n%s</details>' % (
        kind, html.escape(line.members["test"]), numbers, html.escape(rank), html.escape(rest), "\n".join(parts))


def table_of(states):
    """The states as a table: a column a place, and one of how often each was met, where that is known."""
    if isinstance(states, dict):
        rows = [dict([word.split("=") for word in state.split()], runs=count) for state, count in states.items()]
    else:
        rows = states
    return table(list(rows[0]), [row.values() for row in rows])


def table_of_cores(cores):
    """What the caches did as a table: of each core and count the sum, and in brackets the least and the greatest of one run."""
    cells = [["P%d" % core, *("%(sum)d (%(least)d to %(greatest)d)" % count for count in counts.values())] for core, counts in enumerate(cores)]
    return table(["core", *cores[0]], cells)


def table(heads, rows):
    head = "".join("<th>%s</th>" % html.escape(name) for name in heads)
    cells = ["".join("<td>%s</td>" % html.escape(str(value)) for value in row) for row in rows]
    return "<table><tr>%s</tr>%s</table>" % (head, "".join("<tr>%s</tr>" % row for row in cells))


# ---- pictures

# Sizes of a picture: of a bar, of the names before it, of the longest bar, and of the whole.
HEIGHT, NAMES, LONGEST, WIDTH = 20, 300, 340, 720


def picture_of(name, lines):
    """Bars of a number by what rows choose, each the mean of those tests that have it at each; nothing where all rows choose the same."""
    several = [choice for choice in CHOICES if len({line.chosen.get(choice) for line in lines if line.test}) > 1]
    by_place, ended = {}, {}
    for line in filter(lambda line: line.test, lines):
        place = tuple(line.chosen.get(choice, "") for choice in several)
        of_tests, numbers = by_place.setdefault(place, {}), numbers_of(line)
        of_tests.update({line.test: numbers[name]} if name in numbers else {})
        # a test that has no number since it didn't end, and no other one
        ended[line.test] = ended.get(line.test, True) and (name in numbers or line.members.get("ended") == 0)
    common, means_at = means.shared(by_place)
    if len(by_place) < 2 or common and not any(means_at.values()):
        return ""
    of_run = " a run, all cores" if any(line.members.get("cores") for line in lines) else ""
    with_any = set().union(*by_place.values())
    told = name.replace("_", "-") + of_run + ", " + means.mean_of(len(common), sum(map(bool, by_place.values())), [ended[test] for test in with_any - common])
    places = sorted(by_place, key=lambda place: [*map(verdicts.in_order, place)])
    names = [", ".join("%s %s" % pair for pair in zip(several, place)) for place in places]
    bars = "\n".join(bar_of(at, names[at], means_at.get(place), max(means_at.values(), default=0)) for at, place in enumerate(places))
    return '<figure><figcaption>%s</figcaption>\n<svg viewBox="0 0 %d %d" role="img" aria-label="%s">\n%s\n</svg></figure>' % (
        html.escape(told), WIDTH, HEIGHT * len(places), html.escape(told), bars)


def bar_of(at, name, value, greatest):
    """A bar, with its name before it and its number behind it; where there is no number, that alone."""
    length, below = LONGEST * value / greatest if value else 0, HEIGHT * at
    rect = "" if value is None else '<rect x="%d" y="%d" width="%.1f" height="%d"></rect>' % (NAMES, below + 3, length, HEIGHT - 6)
    return '<text x="%d" y="%d" text-anchor="end">%s</text>%s<text x="%.1f" y="%d">%s</text>' % (
        NAMES - 8, below + 15, html.escape(name), rect, NAMES + length + 6, below + 15, "no number" if value is None else number_text(value))
