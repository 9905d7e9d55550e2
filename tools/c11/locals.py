"""Which variables of its own a function of the source may still read at the beginning of a block."""


class Locals:
    """Of one function: `dead_at` has the variables, pairs of a register and a size, that no later step reads before it overwrites them.
    Variables whose address goes anywhere but into loads and stores count as live."""

    def __init__(self, function):
        lines = [line for block in function.blocks.values() for line in block]
        self._sizes = {line.result: line.parts[0] for line in lines if line.operation == "alloca"}
        self._alias = {name: name for name in self._sizes}
        for line in lines:
            if line.operation == "bitcast" and line.parts[1] in self._alias:
                self._alias[line.result] = self._alias[line.parts[1]]
        escaped = {self._alias[name] for line in lines for name in self._escaping(line) if name in self._alias}
        self._known = set(self._sizes) - escaped
        self._live = self._solve(function)

    def dead_at(self, block):
        return [(name, self._sizes[name]) for name in self._known - self._live[block]]

    def _escaping(self, line):
        """The registers of a line that aren't the address of a load or store."""
        if line.operation == "bitcast":
            return []
        if line.operation == "load":
            return []
        if line.operation == "store":
            return _names(line.parts[1])
        return _names(line.parts)

    def _effects(self, block):
        """What a block surely overwrites before it reads it, and what it may read first."""
        writes, reads = set(), set()
        for line in block:
            name = self._alias.get(line.parts[1]) if line.operation == "load" else None
            if name in self._known and name not in writes:
                reads.add(name)
            name = self._alias.get(line.parts[2]) if line.operation == "store" and isinstance(line.parts[2], str) else None
            if name in self._known and line.parts[0] == self._sizes[name] and name not in reads:
                writes.add(name)
        return writes, reads

    def _solve(self, function):
        effects = {name: self._effects(block) for name, block in function.blocks.items()}
        followers = {name: _followers(block[-1]) for name, block in function.blocks.items()}
        live = {name: set() for name in function.blocks}
        changed = True
        while changed:
            changed = False
            for name in reversed(list(function.blocks)):
                writes, reads = effects[name]
                after = set().union(*(live[to] for to in followers[name]))
                found = reads | after - writes
                if found != live[name]:
                    live[name], changed = found, True
        return live


def _followers(last):
    if last.operation == "br":
        return [part for part in last.parts[-2 if len(last.parts) == 3 else -1:]]
    if last.operation == "switch":
        return [last.parts[1], *last.parts[2].values()]
    return []


def _names(part):
    """The registers that a part of a line names."""
    if isinstance(part, str):
        return [part] if part.startswith("%") else []
    if isinstance(part, dict):
        part = part.values()
    elif not isinstance(part, (tuple, list)):
        return []
    return [name for one in part for name in _names(one)]
