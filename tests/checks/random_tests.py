"""Tests made at random, for tests/outcomes.py and tests/why.py: by a generator that is given, under names with a number."""
import re

LOCATIONS = ("x", "y", "z")
REGISTERS = ("EAX", "EBX", "ECX")


def cell(draw):
    """An instruction."""
    location, register, other = draw.choice(LOCATIONS), draw.choice(REGISTERS), draw.choice(REGISTERS)
    return draw.choice((
        "MOV [%s],$%d" % (location, draw.randint(0, 3)), "MOV [%s],%s" % (location, register), "MOV %s,[%s]" % (register, location),
        "MOV %s,[%s]" % (register, location), "MOV [%s],$1" % location, "MOV %s,$%d" % (register, draw.randint(0, 2)),
        "MOV %s,%s" % (register, other), "MFENCE", "XCHG [%s],%s" % (location, register), "LOCK XADD [%s],%s" % (location, register)))


def made_test(draw, number):
    """A test of two to four cores."""
    cores = draw.choice((2, 2, 2, 3, 3, 4))
    programs = [[] for _ in range(cores)]
    for _ in range(draw.randint(1, (12, 10, 8)[cores - 2])):
        draw.choice(programs).append(cell(draw))
    atoms = ["%d:%s=%d" % (draw.randrange(cores), draw.choice(REGISTERS), draw.randint(0, 2)) for _ in range(2)]
    return written(draw, "made%d" % number, programs, draw.sample(LOCATIONS + ("0:EAX", "1:EBX"), 2), atoms)


def alike_test(draw, number):
    """A test of which some cores have the same program, and often the same first and shown registers."""
    cores = draw.choice((2, 3, 3, 4, 4))
    programs = [[cell(draw) for _ in range(draw.randint(1, (5, 3, 2)[cores - 2]))] for _ in range(draw.choice((1, 1, 2)))]
    register = draw.choice(REGISTERS)
    atoms = ["%d:%s=%d" % (core, register, draw.randint(0, 2)) for core in range(draw.choice((2, cores, cores)))]
    return written(draw, "alike%d" % number, [draw.choice(programs) for _ in range(cores)],
                   draw.sample(LOCATIONS + ("0:EAX",), draw.choice((1, 1, 2))), [" /\\ ".join(atoms), atoms[-1]])


def written(draw, name, programs, first_places, atoms):
    """A test of these programs, whose initial state has these places, and whose condition these two claims and one on a location."""
    cores = len(programs)
    rows = [["P%d" % core for core in range(cores)]]
    rows += [[program[at] if at < len(program) else "" for program in programs] for at in range(max(map(len, programs)))]
    table = "".join(" " + " | ".join(row) + " ;\n" for row in rows)
    first = "{ %s }" % "".join("%s=%d; " % (place, draw.randint(0, 3)) for place in first_places)
    used = sorted(set(re.findall(r"\[(\w)\]", table)) or {"x"})
    atoms = atoms + ["%s=%d" % (draw.choice(used), draw.randint(0, 3))]
    condition = draw.choice(("", "exists (%s /\\ %s)\n" % (atoms[0], atoms[1]), "~exists (%s \\/ %s)\n" % (atoms[0], atoms[2]),
                             "forall (not (%s /\\ %s))\n" % (atoms[1], atoms[2])))
    return ("X86 %s\n%s\n%s%s" % (name, first, table, condition)).encode()


def large_test(draw, number):
    """A test of more cores and instructions: most have more states than are kept."""
    cores = draw.choice((3, 4, 6, 8))
    programs = [[cell(draw) for _ in range(draw.randint(4, 24 // cores + 3))] for _ in range(cores)]
    atoms = ["%d:%s=%d" % (draw.randrange(cores), draw.choice(REGISTERS), draw.randint(0, 2)) for _ in range(2)]
    return written(draw, "large%d" % number, programs, draw.sample(LOCATIONS + ("0:EAX", "1:EBX"), 2), atoms)
