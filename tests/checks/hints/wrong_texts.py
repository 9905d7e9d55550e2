"""Wrong texts for tests/hints.py, made from a seed: a test with one slip, of each kind in several places.

Each is refused with a hint that names a cure, and is read once a script has done what the hint says (tests/checks/hints/hint_changes.py); where a
cure shows what else is wrong there, after one or two more.
"""
import random
import re

from .hint_changes import followed

SEED, COUNT = 1, 400

# A slip may be two faults, as `movl $1,(x)` is.
MOST_CURES = 3

REGISTERS = ("EAX", "EBX", "ECX", "EDX", "ESI", "EDI")
LOCATIONS = ("x", "y", "z")


class Parts:
    """A test in parts, which a slip changes."""

    def __init__(self, chance):
        self.chance = chance
        self.header, self.facts, self.choices = "X86 t%d" % chance.randrange(100), ["Orig=PodWR Fre"][:chance.randint(0, 1)], ""
        self.items = ["%s=%d" % (name, chance.randrange(3)) for name in LOCATIONS[:chance.randint(0, 2)]]
        self.cores = chance.randint(1, 3)
        self.rows = [[self.cell() for _ in range(self.cores)] for _ in range(chance.randint(1, 3))]
        self.atoms = ["%s=%d" % (name, chance.randrange(3)) for name in LOCATIONS[:chance.randint(1, 2)]]

    def cell(self):
        chance = self.chance
        forms = ("MOV [%s],$1", "MOV [%s],%s", "MOV %s,[%s]", "XCHG [%s],%s", "LOCK XADD [%s],%s", "MFENCE", "MOV %s,$2")
        form = chance.choice(forms)
        place, register = chance.choice(LOCATIONS), chance.choice(REGISTERS)
        words = (register, place) if form.startswith("MOV %s,[") else (register,) if form == "MOV %s,$2" else (place, register)
        return form % words[:form.count("%s")]

    def lines(self):
        yield self.header
        yield from self.facts
        yield "{ %s }" % "".join(item + "; " for item in self.items)
        yield " %s ;" % " | ".join("P%d" % core for core in range(self.cores))
        for row in self.rows:
            yield " %s ;" % " | ".join(row)
        if self.atoms:
            yield "exists (%s)" % " /\\ ".join(self.atoms)
        if self.choices:
            yield from ("====", self.choices)

    def text(self):
        return "\n".join(self.lines()) + "\n"

    def put_cell(self, *cells):
        """Puts one of these cells in the place of some cell."""
        row = self.chance.choice(self.rows)
        row[self.chance.randrange(self.cores)] = self.chance.choice(cells)
        return self.text()

    def put_item(self, *items):
        """Puts one of these items into the initial state."""
        self.items.insert(self.chance.randint(0, len(self.items)), self.chance.choice(items))
        return self.text()

    def put_atom(self, *atoms):
        """Puts one of these atoms into the condition."""
        self.atoms.insert(self.chance.randint(0, len(self.atoms)), self.chance.choice(atoms))
        return self.text()

    def put_line(self, line, first=1):
        """Puts a line between others, after so many of them at least."""
        lines = list(self.lines())
        lines.insert(self.chance.randint(first, len(lines)), line)
        return "\n".join(lines) + "\n"


# ---- the slips

def adds_after_lock(parts):
    return parts.put_cell("LOCK ADD [x],1", "LOCK ADD [y],$7", "LOCK INC [x]", "lock inc [z]", "LOCK SUB [x],2", "LOCK DEC [y]")


def computes(parts):
    return parts.put_cell("ADD [x],1", "INC [x]", "inc [y]", "SUB [z],3", "DEC [x]", "ADD EAX,1", "XOR EAX,EAX", "AND EBX,$1", "NEG ECX")


def jumps(parts):
    return parts.put_cell("CMPXCHG [x],EAX", "LOCK CMPXCHG [y],EBX", "JNE L0", "JMP L0", "jz l1", "CMP EAX,$1", "CMP EAX,[x]", "L0:",
                          "TEST EAX,EAX", "LOOP L0", "CALL f", "RET")


def names_label(parts):
    row = parts.chance.choice(parts.rows)
    core = parts.chance.randrange(parts.cores)
    row[core] = parts.chance.choice(("L0: ", "l1:", "again : ", "0: ", "12:", "P0: ")) + row[core]
    return parts.text()


def says_size(parts):
    return parts.put_cell("MOVL [x],$1", "movl [y],EAX", "MOVL EAX,[x]", "MOVQ [x],$1", "MOVQ EBX,[z]", "MOVL EAX,$3", "XCHGL [x],EAX",
                          "xchgq EAX,[y]", "LOCK XADDL [x],EAX", "LOCK XCHGL [x],EBX")


def does_nothing(parts):
    return parts.put_cell("NOP", "nop", "PAUSE", "CLFLUSH [x]", "clflushopt [y]", "SFENCE", "LFENCE")


def says_pointer(parts):
    return parts.put_cell("MOV DWORD PTR [x],1", "MOV [x],DWORD PTR 1", "MOV EAX,DWORD PTR [y]", "mov dword ptr [z],$4",
                          "XCHG DWORD PTR [x],EAX", "LOCK XADD DWORD PTR [x],EBX", "MOV DWORD [x],EAX")


def moves_between_locations(parts):
    return parts.put_cell("MOV [x],[y]", "MOV [z],[x]", "mov [y],[z]")


def names_core(parts):
    core, register = parts.chance.randrange(parts.cores), parts.chance.choice(REGISTERS)
    slip = "P%d:%s=1" % (core, register)
    return parts.chance.choice((parts.put_item, parts.put_atom))(slip)


CHARACTERS = {" ": "\u00a0\u2003\u202f", "/\\": "\u2227", "exists": "\u2203", '"': "\u201c\u201d"}


def is_not_ascii(parts):
    """A character of other texts stands for one of these, or shows nothing."""
    chance = parts.chance
    kind = chance.randrange(6)
    if kind == 5:
        parts.header = parts.header.replace(" ", chance.choice(CHARACTERS[" "]))
        return parts.text()
    if kind == 0:
        return parts.put_item("%s=\u22121" % chance.choice(("a", "b")))
    if kind == 1:
        parts.facts = ["\u201cPodWR Fre\u201d"]
        return parts.text()
    text = parts.text()
    if kind == 2:
        places = [found.end() for found in re.finditer(r"[;,|{]", text)]
        at = chance.choice(places)
        return text[:at] + chance.choice("\u200b\ufeff\u2060") + text[at:]
    old = chance.choice([word for word in (" ", "/\\", "exists") if word in text.split("\n", 1)[1]])
    head, body = text.split("\n", 1)
    body = body if parts.facts == [] else body.split("\n", 1)[1]
    places = [found.start() for found in re.finditer(re.escape(old), body)]
    at = chance.choice(places)
    return head + "\n" + body[:at] + chance.choice(CHARACTERS[old]) + body[at + len(old):]


def begins_comment(parts):
    return parts.put_line(parts.chance.choice((";; a comment", ";;; another one", ";;no blank")))


def divides_otherwise(parts):
    parts.choices = ""
    return parts.text() + parts.chance.choice(("----", "-----", "...", "....", "--")) + "\n0s 0d\n"


def has_two_tests(parts):
    other = Parts(parts.chance).text()
    if parts.chance.random() < 0.3:
        parts.choices = "0s 0d"
    elif parts.chance.random() < 0.5:
        parts.atoms = []
    return parts.text() + other


def has_other_register(parts):
    register = parts.chance.choice(("RAX", "rbx", "r8", "R9d", "r15", "al", "CL", "ax", "SI"))
    core = parts.chance.randrange(parts.cores)
    slip = "%d:%s=1" % (core, register)
    return parts.chance.choice((parts.put_item, parts.put_atom))(slip)


def has_other_register_in_cell(parts):
    return parts.put_cell("MOV RAX,[x]", "MOV [x],r8d", "MOV r9,$1", "XCHG [y],RBX", "LOCK XADD [x],r10d", "MOV al,[x]", "MOV EAX,x")


def has_other_header(parts):
    word = parts.chance.choice(("AArch64", "ARM", "PPC", "RISCV", "MIPS", "C", "CPP", "LISA", "X86_64", "x86"))
    parts.header = parts.header.replace("X86", word)
    return parts.text()


def has_address(parts):
    core, register = parts.chance.randrange(parts.cores), parts.chance.choice(REGISTERS)
    parts.chance.choice(parts.rows)[core] = parts.chance.choice(("MOV [%s],$1", "MOV EAX,[%s]", "XCHG [%s],EBX")) % register
    if parts.chance.random() < 0.5:
        parts.items.append("%d:%s=x" % (core, register))
    return parts.text()


def has_source_first(parts):
    return parts.put_cell("movl $1,(x)", "movl (y),%eax", "mov %ebx,(z)", "MOV $1,[x]", "MOV $2,EAX", "xchgl %eax,(x)", "movl %eax,%ebx",
                          "lock xaddl %ecx,(y)")


def has_round_brackets(parts):
    return parts.put_cell("MOV (x),$1", "mov (y),2", "XCHG (x),EAX", "XCHG EBX,(z)", "LOCK XADD (x),ECX", "LOCK XCHG (y),EDX")


def has_bare_location(parts):
    return parts.put_cell("movl $1,x", "movl %eax,y", "movl z,%ebx", "mov $2,x", "xchgl %eax,x", "lock xaddl %ecx,y")


def takes_address(parts):
    return parts.put_cell("MOV EAX,&y", "MOV &x,$1", "XCHG &z,EBX", "LOCK XADD &x,EAX")


def has_dollar(parts):
    return parts.put_cell("MOV [x],$y", "MOV EAX,$x", "MOV [z],$x", "MOV [x],$EAX", "MOV ECX,$EDX")


def exchanges_registers(parts):
    return parts.put_cell("XCHG EAX,EBX", "xchg ecx,edx", "LOCK XCHG ESI,EDI")


def calls_function(parts):
    return parts.put_cell("WRITE_ONCE(*x, 1)", "WRITE_ONCE(y, 1)", "READ_ONCE(*y)", "atomic_store(&x, 1)", "atomic_load(&z)",
                          "atomic_store_explicit(&x, 1, memory_order_relaxed)", "smp_store_release(x, 1)", "__atomic_load_n(&y, 5)")


def stands_in_intel_syntax(parts):
    return parts.put_cell("mov dword ptr [rip + x], 1", "mov DWORD PTR y[rip], 2", "mov eax, dword [rel y]", "mov dword ptr ds:[x], ecx",
                          "mov x, 1", "mov ebx, z", "xchg dword ptr [x], eax", "XACQUIRE LOCK XCHG [y],ECX", "mov [x], 'B'", "mov [z], 10h")


def stands_in_c(parts):
    return parts.put_cell("x = 1", "*y = 2", "int r0 = y", "r1 = *x", "z = x", "x++", "y += 2", "x.store(1, Ordering::Relaxed)",
                          "let r0 = y.load(Ordering::Acquire)", "atomic_fetch_add(&x, 1)", "y.exchange(1)", "smp_mb()", "spin_unlock(&z)",
                          "atomic_store(&x, 1)", "asm volatile(\"mfence\" ::: \"memory\")")


def ends_cell_as_in_c(parts):
    """A statement of C stands in a cell with its end."""
    parts.cores = 2
    parts.rows = [[parts.cell(), parts.cell()]]
    statement = parts.chance.choice(("x = 1", "smp_mb()", "WRITE_ONCE(y, 2)", "r0 = READ_ONCE(x)", "int r1 = z",
                                     "std::atomic_thread_fence(std::memory_order_seq_cst)"))
    parts.rows[0][0] = statement + ";"
    return parts.text()


def computes_in_location(parts):
    return parts.put_cell("ADD EAX,[x]", "sub ebx, dword ptr [y]", "LOCK OR [x],[y]", "INC x", "and [z],$1", "LOCK XOR x,EBX", "XOR [x],EAX")


def needs_no_lock(parts):
    return parts.put_cell("LOCK INC EAX", "LOCK ADD EBX,$1", "LOCK XCHG EAX,EBX", "lock sub ecx,edx", "LOCK NEG ESI", "LOCK SFENCE")


def compares_and_exchanges(parts):
    return parts.put_cell("LOCK CMPXCHG [x],$1", "LOCK CMPXCHG EBX,[x]", "lock cmpxchgl %ebx,(x)", "cmpxchg [x],ecx", "cmpxchgl %edx,y",
                          "lock cmpxchg dword ptr [y], ebx", "LOCK CMPXHG [x],EBX", "CMPXCG [z],ECX")


def computes_in_other_order(parts):
    return parts.put_cell("lock addl $1,(x)", "addl $1,%eax", "incl %ecx", "lock incl x", "xorl %ebx,%eax", "addl (x),%eax", "addl %eax,(y)",
                          "lock orl %ebx,z", "lock andl $-2,(x)", "negl x", "SUB $3,EAX", "lock addl $1,x(%rip)", "add r8d, 1")


def lacks_space(parts):
    return parts.put_cell("ADDEAX,$1", "INCEBX", "LOCKADD [x],$1", "LOCK_INC [y]", "SFENSE", "PUASE", "ADDD EAX,$1", "NEEG EBX")


def has_number_of_larger_set(parts):
    return parts.chance.choice((
        lambda: parts.put_item("a=0x10", "a=-0x1", "0:EBX=0XfF"), lambda: parts.put_atom("x=0x1f", "x=-1", "0:EBX=-0x10"),
        lambda: parts.put_cell("MOV [x],$0x10", "MOV EAX,-1", "MOV EBX,$-0x2")))()


def has_word_behind(parts):
    row = parts.chance.choice(parts.rows)
    core = parts.chance.randrange(parts.cores)
    row[core] = parts.chance.choice(("MOV [x],$1", "MOV EAX,[y]", "XCHG [z],EBX")) + " " + parts.chance.choice(("PodWR", "Fre", "rel"))
    return parts.text()


def has_lines_above(parts):
    return parts.chance.choice(("$ cat sb.litmus\n", "Here is the test:\n\n", "#include <stdio.h>\n", "section .text\n")) + parts.text()


def begins_name_with_digit(parts):
    name = "%d%s" % (parts.chance.randrange(10), parts.chance.choice("abyz"))
    return parts.chance.choice((
        lambda: parts.put_cell("MOV [%s],$1" % name, "MOV EAX,[%s]" % name, "XCHG [%s],EBX" % name),
        lambda: parts.put_item("%s=1" % name), lambda: parts.put_atom("%s=1" % name)))()


def has_no_value(parts):
    return parts.put_item("a=b", "a=&x", "[b]=a", "b=tail")


def compares_places(parts):
    return parts.put_atom("0:EAX=x", "x=y", "0:EAX=0:EBX", "y=0:ECX")


def has_values(parts):
    return parts.put_atom("0:EAX in {0,1}", "x in {1,2}", "0:EBX={0,2}", "y=0|1", "x=1,2", "0:EAX=0 or 1")


def has_other_cells(parts):
    """A row has a cell too many, an empty one at an end, or one too few."""
    parts.cores = max(parts.cores, 2)
    parts.rows = [[parts.cell() for _ in range(parts.cores)] for _ in range(2)]
    row = parts.chance.choice(parts.rows)
    change = parts.chance.randrange(4)
    if change == 3:
        row.pop()
    else:
        row.insert(*((len(row), "MFENCE"), (len(row), ""), (0, ""))[change])
    return parts.text()


def asks_otherwise(parts):
    """The condition begins with another word."""
    word = parts.chance.choice(("exits", "exsits", "never", "always", "assert", "for all", "allowed", "forbidden", "cases", "not"))
    return re.sub(r"\bexists\b", word, parts.text())


def leaves_open(parts):
    """A bracket of the condition, or the initial state, has no end."""
    text = parts.text()
    return text.replace(")", "") if parts.chance.random() < 0.5 else re.sub(r"(?m)^(\{.*?) *\}$", r"\1", text)


def splits_otherwise(parts):
    """Another sign than the bar stands between two cells."""
    parts.cores = 2
    parts.rows = [[parts.cell(), parts.cell()]]
    lines = list(parts.lines())
    at = next(at for at, line in enumerate(lines) if line.startswith(" P0")) + 1
    lines[at] = lines[at].replace("|", parts.chance.choice(("/", "!", "\u2502", "\u00a6")))
    return "\n".join(lines) + "\n"


def ends_no_row(parts):
    parts.cores, parts.atoms = 2, []
    parts.rows = [[parts.cell(), parts.cell()] for _ in range(3)]
    lines = list(parts.lines())
    at = next(at for at, line in enumerate(lines) if line.startswith(" P0")) + parts.chance.choice((1, 3))
    lines[at] = lines[at].rstrip(" ;")
    return "\n".join(lines) + "\n"


def has_signed_number(parts):
    return parts.put_item("a=-1", "b=-7", "[a]=-2147483648")


def stands_in_markdown(parts):
    text = parts.text()
    return parts.chance.choice(("```\n%s```\n", "```litmus\n%s```\n", "%s```\n")) % text


def writes_choices_otherwise(parts):
    parts.choices = "0s 0d %s 0s" % parts.chance.choice(("s0", "d0", "P0s", "p0d", "0:s", "0S", "0D", "core0s"))
    return parts.text()


SLIPS = (adds_after_lock, computes, jumps, names_label, says_size, does_nothing, says_pointer, moves_between_locations, names_core,
         is_not_ascii, begins_comment, divides_otherwise, has_two_tests, has_other_register, has_other_register_in_cell, has_other_header,
         has_address, has_source_first, has_round_brackets, has_bare_location, takes_address, has_dollar, exchanges_registers,
         calls_function, computes_in_location, needs_no_lock, compares_and_exchanges, computes_in_other_order,
         lacks_space, has_number_of_larger_set, stands_in_intel_syntax, stands_in_c, ends_cell_as_in_c, has_word_behind, has_lines_above,
         begins_name_with_digit, has_no_value, compares_places, has_values, has_other_cells, asks_otherwise, leaves_open,
         splits_otherwise, ends_no_row, has_signed_number, stands_in_markdown, writes_choices_otherwise)


def texts():
    """The texts, each with its slip: no text twice."""
    chance, found = random.Random(SEED), {}
    while len(found) < COUNT:
        slip = SLIPS[len(found) % len(SLIPS)]
        found.setdefault(slip(Parts(chance)), slip)
    return list(found.items())


# ---- judging

def faults_of(program, text):
    read, hints = followed(program, text)
    if not hints:
        return ["isn't refused"] + text.split("\n")
    if read is None or len(hints) > MOST_CURES:
        return ["isn't read after so many cures:"] + hints + text.split("\n")
    return []


def works():
    """Names of the texts, each with a function of a program's faults."""
    return [("the cure of a wrong text, %d: %s" % (number, slip.__name__), lambda program, text=text: faults_of(program, text))
            for number, (text, slip) in enumerate(texts())]
