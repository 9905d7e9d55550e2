"""What a test's line `Show=..` asks of `tso outcomes`, where the program knows the option."""
import litmus
import tso

# The programs that were asked, each with whether it knows the option.
known = {}


def words_of_show(program, text):
    """The words that have `outcomes` show what a test's line `Show=..` asks for, where the program knows them."""
    if "\n%s=" % litmus.SHOW not in text:
        return []
    show = litmus.show_of(litmus.read_test(text).facts)
    if show and program not in known:
        known[program] = "show" in tso.options("outcomes", program)
    return ["--show", show] if show and known[program] else []
