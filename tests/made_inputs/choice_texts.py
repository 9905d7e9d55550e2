"""Choice texts: choices that end a test or don't, in every spelling, and choice texts with a fault."""

SEPARATORS = (" ", " ", " ", "\t", "\n", "\r\n", "  ", " \t", "\r", "\n\n")

NO_WORDS = ("0S", "0D", "s", "d", "seed", "0", "00", "0s0d", "0s,", "-0s", "+0s", "0x", "x", "0s\x0b0s", "0s\x0c", "\x000s", "Seed",
            "SEED", "0 s", "s0", "====", "\xe9", "0ss", "(*", "1_s", "\xd9\xa1s", "seed1", "0s;")

BAD_SEEDS = ("seed", "seed 1", "seed 1\n", "seed x 1", "seed 0s 0s", "seed seed 1", "seed 1 seed", "seed 1 x", "seed 1 0s",
             "seed -1 5", "seed 1 -1", "seed +1 5", "seed 18446744073709551616 1", "seed 99999999999999999999999 x",
             "seed 1.0 5", "seed 0x1 5", "seed 18446744073709551616 x", "seed 18446744073709551616", "seed 1\x0b2 3", "seed 1 1_0")

EDGE_SEEDS = ("seed 18446744073709551615 40", "seed 0 0", "seed 0018446744073709551615 30", "seed 0 007", "seed 4294967296 25",
              "seed 9223372036854775808 25")


def work_of(test):
    """About how many choices the test takes that don't stall, on either bus."""
    return 4 + 3 * sum(map(len, test.programs))


def ending_length(test):
    """About how many choices of a seed end the test."""
    return min(60 + 12 * test.cores() * work_of(test), 90_000)


def spelled(draw, words):
    """Words with white space of every kind between them."""
    gaps = [" "] * len(words) if draw.random() < 0.4 else draw.choices(SEPARATORS, k=len(words))
    text = draw.choice(("", "", " ", "\n", "\t")) + "".join(map("".join, zip(words, gaps)))
    return text if draw.random() < 0.6 else text.rstrip(" \t\r\n")


def choice(draw, core, action):
    return "0" * draw.choice((0,) * 12 + (1, 3)) + "%d%s" % (core, action)


def burst_words(draw, test, count):
    """Choices core by core in bursts; some texts drain late, some at once."""
    words, drains = [], draw.choice((0.1, 0.3, 0.5, 0.6))
    while len(words) < count:
        core = draw.randrange(test.cores())
        for _ in range(draw.choice((1, 1, 1, 2, 2, 3, 6))):
            words.append(choice(draw, core, "d" if draw.random() < drains else "s"))
    return words


def ending_words(draw, test):
    """A seed's choices that nearly always end the test."""
    seed = draw.choice((draw.randrange(1000), draw.randrange(2**64)))
    return ["seed", "0" * draw.choice((0, 0, 0, 2)) + str(seed), str(ending_length(test))]


def seed_alone(draw, test):
    return spelled(draw, ending_words(draw, test))


def choices(draw, test):
    """A list of choices that the test may have."""
    words = burst_words(draw, test, draw.randint(0, 2 * work_of(test)))
    kind = draw.random()
    if kind < 0.8:
        words += ending_words(draw, test)
    elif kind < 0.85:
        words += draw.choice(EDGE_SEEDS).split()
    if kind < 0.15:
        words += burst_words(draw, test, draw.randint(0, 9))
    return spelled(draw, words)


def stores_first(draw, test):
    """Steps alone, so that buffers fill; then drains and what is left."""
    words = []
    for core, program in enumerate(test.programs):
        words += [choice(draw, core, "s") for _ in range(len(program) + draw.randint(0, 1))]
    draw.shuffle(words)
    return spelled(draw, words + ending_words(draw, test))


def faulty_choices(draw, test, turn):
    """A choice text with a fault, or at a limit; which kind goes by the turn."""
    cores = test.cores()
    if turn % 50 == 9:
        return spelled(draw, ["0s"] * draw.choice((100_000, 100_001)))
    if turn % 10 == 6:
        return spelled(draw, ["seed", "1", "99999", "0s", draw.choice(("0s", "0d", "seed 5 1", "seed 0 0"))])
    nth = turn // 10
    fault = (
        NO_WORDS[2 * nth % len(NO_WORDS)],
        NO_WORDS[(2 * nth + 1) % len(NO_WORDS)],
        BAD_SEEDS[2 * nth % len(BAD_SEEDS)],
        BAD_SEEDS[(2 * nth + 1) % len(BAD_SEEDS)],
        draw.choice(("%ds", "%dd", "00%ds", "99999999999999999999%dd")) % draw.choice((cores, cores + 1, 255)),
        "seed 1 100001",
        "",
        "seed 3 100000 " + draw.choice(("0s", "seed 1 0", "%dd" % cores, "seed 1 " + "9" * 50, "x")),
        draw.choice(EDGE_SEEDS),
        "0d 0s",
    )[turn % 10]
    before = burst_words(draw, test, draw.randint(0, 5))
    after = [] if fault in BAD_SEEDS and draw.random() < 0.6 else burst_words(draw, test, draw.randint(0, 3))
    return spelled(draw, before + [fault] + after)
