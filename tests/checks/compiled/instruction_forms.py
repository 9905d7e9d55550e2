"""What the interpreter of machine code says of each form of instruction, against the processor that this runs on, for tests/compiled.py.

Each form is assembled once. The same bytes run on the processor, between loads and stores of all registers and flags, and in the
interpreter; both begin with the same made values. A flag that the processor leaves undefined isn't compared.
"""
import os
import random
import struct
import subprocess
import tempfile

from c11.machine import Machine
from c11.objects import Image

REGISTERS = ("rax", "rcx", "rdx", "rbx", "rsi", "rdi", "r8")
# The interpreter's numbers of these, and of R9, which points to the second of the words in memory.
NUMBERS, POINTER = (0, 1, 2, 3, 6, 7, 8), 9
WORDS = 4
FLAG_BITS = (0, 6, 7, 11, 2)
ALL_FLAGS = sum(1 << bit for bit in FLAG_BITS)

CONDITIONS = ("o", "no", "b", "ae", "e", "ne", "be", "a", "s", "ns", "p", "np", "l", "ge", "le", "g")
SIZES = {"b": ("al", "cl", 1), "w": ("ax", "cx", 2), "l": ("eax", "ecx", 4), "q": ("rax", "rcx", 8)}
MEMORY = "(%r9)"

HARNESS = r"""
#include <stdint.h>
#include <stdio.h>
#include <stdlib.h>
struct state { uint64_t registers[7], flags, words[4]; };
extern void (*const forms[])(struct state *);
extern const int count;
int main(int given, char **words) {
  FILE *in = fopen(words[1], "rb"), *out = fopen(words[2], "wb");
  int states = atoi(words[3]);
  struct state *made = malloc(states * sizeof *made), now;
  if (!in || !out || fread(made, sizeof *made, states, in) != (size_t)states) return 1;
  for (int form = 0; form < count; form++)
    for (int at = 0; at < states; at++) { now = made[at]; forms[form](&now); fwrite(&now, sizeof now, 1, out); }
  return fclose(out);
}
"""


def forms():
    """All forms, as lines of assembly that are set apart by `;`."""
    return [form for letter in SIZES for form in _forms_of_size(letter)] + _forms_of_flags() + _forms_by_hand()


def _forms_of_size(letter):
    """The forms with operands of one size, by the letter that an instruction's name has for it."""
    one, other = "%" + SIZES[letter][0], "%" + SIZES[letter][1]
    found = _sums(letter, one, other)
    found += ["mov%s %s, %s" % (letter, source, to) for source, to in (
        (other, one), ("$-2", one), (MEMORY, one), (one, MEMORY), ("$9", MEMORY), ("8(%r9)", one))]
    found += ["xchg%s %s, %s" % (letter, other, one), "xchg%s %s, %s" % (letter, one, MEMORY)]
    found += ["%sxadd%s %s" % (prefix, letter, operands) for prefix, operands in (
        ("", other + ", " + one), ("", other + ", " + MEMORY), ("lock ", other + ", " + MEMORY))]
    found += ["%scmpxchg%s %s" % (prefix, letter, operands) for prefix, operands in (
        ("", other + ", %" + {"b": "dl", "w": "dx", "l": "edx", "q": "rdx"}[letter]), ("", other + ", " + MEMORY),
        ("lock ", other + ", " + MEMORY))]
    return found if letter == "b" else found + _no_byte_forms(letter, one, other)


def _sums(letter, one, other):
    """Sums, comparisons, and shifts."""
    found = []
    for name in ("add", "sub", "adc", "sbb", "and", "or", "xor", "cmp", "test"):
        name += letter
        found += ["%s %s, %s" % (name, other, one), "%s $0x7b, %s" % (name, one), "%s $-3, %s" % (name, MEMORY),
                  "%s %s, %s" % (name, one, MEMORY)]
        if not name.startswith("test"):
            found += ["%s %s, %s" % (name, MEMORY, one)]
        if not name.startswith(("cmp", "test")):
            found += ["lock %s %s, %s" % (name, one, MEMORY), "lock %s $5, %s" % (name, MEMORY)]
    for name in ("inc", "dec", "neg", "not"):
        found += ["%s%s %s" % (name, letter, one), "%s%s %s" % (name, letter, MEMORY), "lock %s%s %s" % (name, letter, MEMORY)]
    for name in ("shl", "shr", "sar", "rol", "ror"):
        found += ["%s%s %s, %s" % (name, letter, by, to) for by in ("$1", "$3", "%cl") for to in (one.replace("cl", "al"), MEMORY)]
    return found


def _no_byte_forms(letter, one, other):
    """What has no form for bytes: single bits, products, and moves on a condition."""
    found = []
    for name in ("bt", "bts", "btr", "btc"):
        found += ["%s%s %s, %s" % (name, letter, other, one), "%s%s $11, %s" % (name, letter, one),
                  "%s%s $11, %s" % (name, letter, MEMORY), "and $127, %%rcx; %s%s %s, %s" % (name, letter, other, MEMORY)]
        if name != "bt":
            found += ["lock %s%s $6, %s" % (name, letter, MEMORY)]
            found += ["and $63, %%rcx; lock %s%s %s, %s" % (name, letter, other, MEMORY)]
    found += ["imul%s %s, %s" % (letter, other, one), "imul%s %s, %s" % (letter, MEMORY, one),
              "imul%s $-7, %s, %s" % (letter, other, one)]
    return found + ["cmov%s %s, %s" % (condition, source, one) for condition in CONDITIONS for source in (other, MEMORY)]


def _forms_of_flags():
    return (["set%s %s" % (condition, to) for condition in CONDITIONS for to in ("%dl", "%ah", MEMORY)]
            + ["j%s 1f; not %%rax; 1:" % condition for condition in CONDITIONS])


def _forms_by_hand():
    """What widens a value, addresses, second bytes, the stack, and what does nothing to a register."""
    found = ["mov%s%s" % (kind, rest) for kind in ("z", "s") for rest in (
        "bw %cl, %ax", "bl %cl, %eax", "bq %cl, %rax", "wl %cx, %eax", "wq %cx, %rax", "bl (%r9), %eax", "wl (%r9), %eax", "bl %ah, %ecx")]
    found += ["movslq %ecx, %rax", "movslq (%r9), %rdx", "movabs $0x123456789abcdef0, %rax", "cbtw", "cwtl", "cltq", "cwtd", "cltd", "cqto"]
    found += ["lea (%rax,%rcx,4), %rdx", "lea -9(%rsi), %edi", "lea 7(,%rcx,8), %rax", "lea (%rax,%rcx), %dx"]
    found += ["movb %ah, %cl", "addb %ch, %al", "movb $5, %bh", "xchg %dl, %dh"]
    return found + ["push %rax; pop %rbx", "push $-5; pop %rcx", "push (%r9); pop 8(%r9)", "push %rbp; mov %rsp, %rbp; leave",
                    "call 1f; jmp 2f; 1: lea 1(%rax), %rax; ret; 2:", "mfence", "lfence", "sfence", "pause", "nop", "nopw 8(%rax,%rcx)"]


def _assembly(texts):
    """Each form as a function of a state, with labels around its own bytes."""
    lines = [".text"]
    for number, text in enumerate(texts):
        lines += ["form_%d:" % number, "push %rbx", "push %rbp", "mov %rdi, %rbp", "pushq 56(%rbp)", "popfq", "lea 72(%rbp), %r9"]
        lines += ["mov %d(%%rbp), %%%s" % (8 * at, name) for at, name in enumerate(REGISTERS)]
        lines += [".globl begin_%d" % number, "begin_%d:" % number, *text.split("; "), ".globl end_%d" % number, "end_%d:" % number]
        lines += ["mov %%%s, %d(%%rbp)" % (name, 8 * at) for at, name in enumerate(REGISTERS)]
        lines += ["pushfq", "popq 56(%rbp)", "pop %rbp", "pop %rbx", "ret"]
    lines += [".section .data.rel.ro", ".globl forms", "forms:", *(".quad form_%d" % number for number in range(len(texts)))]
    lines += [".section .rodata", ".globl count", "count: .long %d" % len(texts), ".bss", ".globl words", ".type words, @object",
              ".size words, 32", ".balign 32", "words: .zero 32", '.section .note.GNU-stack,"",@progbits']
    return "\n".join(lines) + "\n"


def made_states(count, seed):
    """Made states: words at the edges of sizes, words that are equal, and any."""
    draw = random.Random(seed)
    edges = [0, 1, 2, 127, 128, 255, 32767, 32768, 65535, 2**31 - 1, 2**31, 2**32 - 1, 2**63 - 1, 2**63, 2**64 - 1]

    def word():
        return draw.choice(edges) if draw.random() < 0.4 else draw.getrandbits(64)
    found = []
    for _ in range(count):
        registers, words = [word() for _ in REGISTERS], [word() for _ in range(WORDS)]
        if draw.random() < 0.4:
            words[1] = registers[0]
        if draw.random() < 0.2:
            registers[2] = registers[0]
        found.append((registers, draw.getrandbits(12) & ALL_FLAGS | 2, words))
    return found


def faults_of_forms(texts, count, seed):
    """For each form, how the interpreter differs from the processor."""
    states = made_states(count, seed)
    with tempfile.TemporaryDirectory() as folder:
        object_file, results = _run_natively(folder, texts, states)
        image = Image(object_file)
    machine = Machine(image, (), 1)
    size = struct.calcsize("<12Q")
    for number, text in enumerate(texts):
        of_form = results[number * count * size:(number + 1) * count * size]
        yield text, _faults_of(machine, number, states, list(struct.iter_unpack("<12Q", of_form)))


def _run_natively(folder, texts, states):
    """The object of the forms, and the states that the processor leaves, in bytes."""
    paths = {name: os.path.join(folder, name) for name in ("forms.s", "forms.o", "harness.c", "harness", "states", "results")}
    with open(paths["forms.s"], "w", encoding="ascii") as file:
        file.write(_assembly(texts))
    with open(paths["harness.c"], "w", encoding="ascii") as file:
        file.write(HARNESS)
    with open(paths["states"], "wb") as file:
        file.write(b"".join(struct.pack("<12Q", *registers, flags, *words) for registers, flags, words in states))
    subprocess.run(["gcc", "-c", "-o", paths["forms.o"], paths["forms.s"]], check=True)
    subprocess.run(["gcc", "-O1", "-o", paths["harness"], paths["harness.c"], paths["forms.o"]], check=True)
    subprocess.run([paths["harness"], paths["states"], paths["results"], str(len(states))], check=True)
    with open(paths["forms.o"], "rb") as file, open(paths["results"], "rb") as found:
        return file.read(), found.read()


def _faults_of(machine, number, states, wanted):
    faults = []
    for state, native in zip(states, wanted):
        found, flags = _interpreted(machine, number, state)
        natural = [*native[:7], *native[8:]]
        native_flags = [native[7] >> bit & 1 for bit in FLAG_BITS]
        if found != natural or any(one is not None and one != other for one, other in zip(flags, native_flags)):
            faults.append("from %s %#x %s: %s %s, and the processor has %s %s" % (
                _hex(state[0]), state[1], _hex(state[2]), _hex(found), flags, _hex(natural), native_flags))
    return faults[:3]


def _interpreted(machine, number, state):
    """The registers and words, and the flags, that the interpreter leaves."""
    registers, flags, words = state
    symbols = machine.image.symbols
    core, start = machine.core_at(symbols["begin_%d" % number].address), symbols["words"].address
    for one, value in zip(NUMBERS, registers):
        core.registers[one] = value
    core.registers[POINTER] = start + 8
    core.flags = tuple(flags >> bit & 1 for bit in FLAG_BITS)
    for at, byte in enumerate(struct.pack("<4Q", *words)):
        core.memory[start + at] = byte
    end = symbols["end_%d" % number].address
    while core.at != end:
        core.step()
    content = bytes(core.memory[start + at] for at in range(8 * WORDS))
    return [core.registers[one] for one in NUMBERS] + list(struct.unpack("<4Q", content)), core.flags


def _hex(words):
    return " ".join("%x" % word for word in words)
