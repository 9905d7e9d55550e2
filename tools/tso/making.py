"""What the answers of the program `tso` are made of: records, and how JSON becomes one."""
import dataclasses
import typing


class Record:
    """An answer, or a part of one: a frozen dataclass. What Python would compile for each of these classes is here once for all of them:
    that would take longer than most answers."""

    def __init__(self, *values, **members):
        # a default is an attribute of the class; what dataclasses says of it is lost where a class comes by value from another process
        kind, names = type(self), list(self.__dataclass_fields__)
        members.update(unnamed := {name: value for name, value in zip(names, values) if name not in members})
        lacks = [name for name in names if name not in members and not hasattr(kind, name)]
        if lacks or len(unnamed) < len(values) or not members.keys() <= set(names):
            raise TypeError("the members of %s are %s" % (kind.__name__, ", ".join(names)))
        vars(self).update({name: members[name] if name in members else getattr(kind, name) for name in names})

    def __setattr__(self, name, _):
        raise dataclasses.FrozenInstanceError("%s can't be set" % name)

    def __delattr__(self, name):
        raise dataclasses.FrozenInstanceError("%s can't be deleted" % name)

    def __repr__(self):
        return "%s(%s)" % (type(self).__name__, ", ".join("%s=%r" % pair for pair in vars(self).items()))

    def __eq__(self, other):
        return vars(self) == vars(other) if type(self) is type(other) else NotImplemented

    def __hash__(self):
        return hash(tuple(vars(self).values()))


# A class of records, with its members as fields.
record = dataclasses.dataclass(init=False, repr=False, eq=False)


# What makes a value of JSON one of a kind, by the kind.
makers = {}


def made(kind, value):
    """A value of JSON as this kind. Members that a later version has more are passed over."""
    if kind not in makers:
        makers[kind] = maker_of(kind)
    return value if makers[kind] is None else makers[kind](value)


def maker_of(kind):
    """What makes a value of JSON one of this kind; None where it is one."""
    if dataclasses.is_dataclass(kind):
        return maker_of_record(kind)
    parts, origin = typing.get_args(kind), typing.get_origin(kind)
    inner = maker_of(parts[1] if origin is dict else parts[0]) if parts else None
    if inner is None:
        return None
    if origin is list:
        return lambda values: [inner(value) for value in values]
    if origin is dict:
        return lambda values: {name: inner(value) for name, value in values.items()}
    return lambda value: None if value is None else inner(value)


def maker_of_record(kind):
    """What makes an object of JSON a record."""
    # dataclasses.fields finds none of a class that came by value from another process
    fields = [(one.name, one.name.rstrip("_"), maker_of(one.type)) for one in kind.__dataclass_fields__.values()]

    def make(found):
        made = kind.__new__(kind)
        members = vars(made)
        for name, key, inner in fields:
            if key in found:
                members[name] = found[key] if inner is None else inner(found[key])
            else:
                members[name] = getattr(kind, name)
        return made

    return lambda found: None if found is None else make(found)
