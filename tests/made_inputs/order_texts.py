"""Order texts: orders of runs, orders that break an axiom, and order texts with a fault."""
from reference import orders
from reference.orders import FENCE, LOCKED_READ, READ, WRITE

BAD_LINES = ("", " ", "P0:0 W x=1 ", " P0:0 W x=1", "P0:0 W x", "P0:0 W x=", "P0:0 W =1", "P0:0  W x=1", "P0:0 X x=1", "P0:0 w x=1",
             "p0:0 W x=1", "P0 :0 W x=1", "P00:0 W x=1", "P0:00 W x=1", "P0:0 W x=01", "P256:0 W x=1", "P0:256 W x=1",
             "P0:0 W x=4294967296", "P0:0 W [x]=1", "P0:0 F x=1", "P0:0 F ", "P0:0 f", "P0:0\tW x=1", "P0:0 W x=1\r\r", "Order",
             "Endorder", "Endorder ", "Endorder 01", "Endorder x", "Endorder -1", "endorder 1", "Endorder  1", "Endorder 1 ",
             "P0:0 W nowhere=1", "P0:0 R EAX=1", "P99999999999999999999:0 F", "P0:0 W x=" + "9" * 50, "P0:0 LR x", "P0:0 R x=+1",
             "\xe9", "Registers P0 EAX=0", "P:0 F", "P0: F", "P0:0 W x=1 y=2", "P0:0 RW x=1", "P0:0 W x=0x1")
FIRST_LINES = ("order", "Order ", "Order\r", "", "ORDER", " Order", "Order:", "Endorder 0")
LAST_LINES = ("Endorder %d", "Endorder %d\r", "Endorder %d ", "Endorder 0%d", "Endorder")

BEFORE = ("", "", "Test t\nMachine msi depth=4\n", "order\n", " Order\n", "Order \n", "P0:0 nothing\n\n", "\xff\x00\n",
          "Endorder 3\n")
AFTER = ("", "", "Registers P0\n", "Order\n", "\x00")


def change_of(turn):
    return CHANGES[turn % len(CHANGES)]


def mutated(draw, test, order, turn):
    """An order that was changed in a known way, which breaks an axiom as a rule."""
    order = list(order)
    kind = change_of(turn)
    for _ in range(draw.choice((1, 1, 1, 2))):
        order = kind(draw, test, order)
    return order


def put(draw, order, entry):
    at = draw.randint(0, len(order))
    return order[:at] + [entry] + order[at:]


def drawn_entry(draw, test):
    kind = draw.choice(("R", "W", "F", "LR", "LW"))
    core, place = draw.choice((0, 1, 2, 7, 8, 255)), draw.choice((0, 1, 2, 31, 32, 255))
    if kind == FENCE or not test.locations:
        return orders.Entry(core, place, FENCE)
    return orders.Entry(core, place, kind, draw.randrange(len(test.locations)), draw.choice((0, 1, 2**32 - 1)))


def extra(draw, test, order):
    return put(draw, order, drawn_entry(draw, test))


def near(draw, test, order):
    """An entry becomes one of another core, place, kind or location."""
    if not order:
        return extra(draw, test, order)
    at = draw.randrange(len(order))
    entry = order[at]
    changes = [{"core": draw.randrange(4)}, {"place": draw.randrange(4)}]
    if entry.kind != FENCE:
        changes += [{"kind": draw.choice(("R", "W", "LR", "LW"))}, {"location": draw.randrange(len(test.locations))}]
    order[at] = entry._replace(**draw.choice(changes))
    return order


def elsewhere(draw, test, order):
    """An entry becomes one of another location."""
    places = [at for at, entry in enumerate(order) if entry.kind != FENCE]
    if places:
        at = draw.choice(places)
        order[at] = order[at]._replace(location=draw.randrange(len(test.locations)))
    return order


def twice(draw, test, order):
    return put(draw, order, draw.choice(order)) if order else order


def twice_with_another_value(draw, test, order):
    valued = [entry for entry in order if entry.kind != FENCE]
    return put(draw, order, draw.choice(valued)._replace(value=draw.choice((0, 1, 5)))) if valued else order


def missing(draw, test, order):
    at = draw.randint(0, len(order))
    return order[:at] + order[at + draw.choice((1, 1, 2)):]


def with_value(kinds):
    def change(draw, test, order):
        places = [at for at, entry in enumerate(order) if entry.kind in kinds]
        if places:
            at = draw.choice(places)
            order[at] = order[at]._replace(value=(order[at].value + draw.choice((1, -1, 2**31))) % 2**32)
        return order
    return change


def moved(draw, test, order):
    """An entry to another place."""
    if order:
        entry = order.pop(draw.randrange(len(order)))
    return put(draw, order, entry) if order else order


def neighbours(draw, test, order):
    if len(order) > 1:
        at = draw.randrange(len(order) - 1)
        order[at:at + 2] = [order[at + 1], order[at]]
    return order


def separated(draw, test, order):
    """The entry before or after a locked instruction comes between its two parts, where it is another core's."""
    places = []
    for at, entry in enumerate(order):
        if entry.kind == LOCKED_READ:
            places += [(near, at + 1) for near in (at - 1, at + 2) if 0 <= near < len(order) and order[near].core != entry.core]
    if places:
        near, between = draw.choice(places)
        entry = order.pop(near)
        order.insert(between - (near < between), entry)
    return order


def loads_early(draw, test, order):
    """A load before the stores of its own core, as far as it may go."""
    places = [at for at, entry in enumerate(order) if entry.kind == READ]
    if places:
        entry = order.pop(draw.choice(places))
        own = [at for at, other in enumerate(order) if other.core == entry.core and other.kind == WRITE]
        order.insert(draw.choice(own) if own else 0, entry)
    return order


def shuffled(draw, test, order):
    draw.shuffle(order)
    return order


CHANGES = (extra, near, elsewhere, twice, twice_with_another_value, missing, with_value(("W", "LW")), moved, neighbours, separated,
           with_value(("R", "LR")), loads_early, neighbours, shuffled, with_value(("R", "W", "LR", "LW")))


def spelled(draw, test, order):
    """The text of an order, with other text before and after it."""
    text = orders.printed_order(test, order)
    text = draw.choice(BEFORE) + text + draw.choice(AFTER)
    if draw.random() < 0.2:
        text = text.replace("\n", "\r\n")
    return text.rstrip("\r\n") if draw.random() < 0.1 else text


def faulty_text(draw, test, order, turn):
    """An order's text with a fault; which kind goes by the turn."""
    lines = orders.printed_order(test, order).splitlines()
    count = len(order)
    at = draw.randint(1, len(lines) - 1)
    kind = turn % 9
    if kind in (0, 1, 2, 3):
        line = BAD_LINES[(turn // 9 * 4 + kind) % len(BAD_LINES)]
        lines[at:at + draw.choice((0, 0, 1))] = [line]
    elif kind == 4:
        lines[-1] = "Endorder %s" % draw.choice((count + 1, max(0, count - 1), count + 2**32, "9" * 50, 10 * count))
    elif kind == 5:
        lines[-1] = draw.choice(LAST_LINES).replace("%d", str(count))
    elif kind == 6:
        lines = lines[:draw.randint(1, len(lines) - 1)]
    elif kind == 7:
        lines[0] = draw.choice(FIRST_LINES)
    else:
        text = "\n".join(lines)
        return text[:draw.randint(0, len(text))]
    return draw.choice(BEFORE) + "\n".join(lines) + draw.choice(("\n", "\r\n", ""))


def limits_of_entries(draw, test):
    """An order of entries with the greatest numbers, of cores and instructions that no test has."""
    name = draw.choice(test.locations) if test.locations else "x"
    lines = ["P255:255 R %s=4294967295" % name, "P255:255 F", "P8:0 LW %s=0" % name, "P0:32 LR %s=1" % name,
             "P%d:0 F" % test.cores()]
    draw.shuffle(lines)
    return "Order\n" + "".join(line + "\n" for line in lines) + "Endorder %d\n" % len(lines)
