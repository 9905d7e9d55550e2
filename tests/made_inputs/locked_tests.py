"""Tests of locked instructions on one location, as locks and turns have them: in what is printed of their reasons each question and each
closing comes up, and some need more cases than a small limit allows."""

LOCATIONS = ("x", "y", "lock", "_1")


def columns(cores, cell):
    """Rows of so many cores that all have this cell."""
    return " %s ;\n %s ;\n" % (" | ".join("P%d" % core for core in range(cores)), " | ".join([cell] * cores))


def swaps(cores, location, words, condition):
    """A test of cores that each swap a word of their own into the location."""
    initial = " ".join("%d:EAX=%d;" % (core, word) for core, word in enumerate(words))
    return "X86 locked\n{ %s }\n%s%s\n" % (initial, columns(cores, "XCHG [%s],EAX" % location), condition)


def lock(draw):
    """Each core writes 1, and has the lock if it reads 0: two of them have it."""
    cores = draw.choice((3, 4))
    pairs = ["(%d:EAX=0 /\\ %d:EAX=0)" % (one, other) for other in range(cores) for one in range(other)]
    return swaps(cores, draw.choice(LOCATIONS), [1] * cores, "exists (%s)" % " \\/ ".join(pairs))


def nobody_first(draw):
    """Each core writes 1, and reads 1."""
    cores = draw.choice((2, 3, 4))
    return swaps(cores, draw.choice(LOCATIONS), [1] * cores, "exists (%s)" % " /\\ ".join("%d:EAX=1" % core for core in range(cores)))


def turns(draw):
    """Each core writes a word of its own: some core reads what the one before it wrote."""
    words = draw.sample(range(1, 9), 3)
    claims = ["%d:EAX=0 /\\ (%d:EAX=%d \\/ %d:EAX=%d)" % (one, *[part for other in range(3) if other != one for part in (other, words[one])])
              for one in range(3)]
    return swaps(3, draw.choice(LOCATIONS), words, "forall (%s)" % " \\/ ".join(claims))


def between(draw):
    """A store that would come between the parts of a locked instruction; now and then the condition names a location that nothing uses."""
    location, unused = draw.choice(LOCATIONS), draw.choice(("", " /\\ spare=0"))
    return ("X86 between\n{ 0:EAX=1; }\n P0 | P1 ;\n XCHG [%s],EAX | MOV [%s],$2 ;\nexists (0:EAX=0 /\\ %s=1%s)\n"
            % (location, location, location, unused))


FORMS = (turns, lock, between, nobody_first)


def locked_test(draw, turn):
    """The text of a test, of each form in turn."""
    return FORMS[turn % len(FORMS)](draw).encode()
