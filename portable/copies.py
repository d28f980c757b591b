"""Which large values need no copy of their own. C compilers do not see most of this, and on a small machine it is most of the stack.

Everything here only saves copies: with LARGE and LENT above every size the translation is right as well, and the tests run it that way too."""
from mir import bodies, mentions, places, target, whole

LARGE = 64  # bytes: a larger result is written through a pointer
LENT = 16  # bytes: a larger parameter that nothing changes is passed as a pointer


class Storage:
    """Where the large values of a function lie.

    large  the result is written to a place that the caller passes as the pointer `result`: a local of its own, which no other argument
           reaches
    owned  the number of the parameter that the result is made from: the caller puts it at `result`
    base   locals that only become the result, or a field of it: they lie there from the start
    same   locals that are one with another
    free   the statements after which a value that was moved lies in the place of its source
    within locals that are a part of another, taken out once and for all: the place where they still lie
    lent   parameters that come as a `const` pointer, to a local of the caller that nobody changes during the call"""

    def __init__(self, program, function):
        self.program, self.function = program, function
        self.large, self.owned = program.size(function.types[0]) > LARGE, None
        self.base, self.same, self.free = {}, {}, []
        moves = list(self.moves())
        self.join_results(moves)
        self.join_moved(moves)
        if self.large:
            self.base[0] = '*result'
            self.place_result()
        self.within = dict(self.taken_out())
        self.lent = {i for i in range(1, function.params + 1) if self.is_lent(i)}

    def local(self, i):
        while i in self.same:
            i = self.same[i]
        return i

    def mentions(self, i, terms):
        """How often i, or a local that is one with it, stands in the terms."""
        return sum(self.local(place.local) == i for place in places(terms))

    def moves(self):
        """Statements that move a large local whole to another: the two, what stands before, the statement, and what stands behind."""
        types = self.function.types
        for body in bodies(self.function.body):
            for n, s in enumerate(body):
                source, to = self.moved(s), target(s) and whole(target(s))
                if source and to and types[source] == types[to] and self.program.size(types[to]) > LARGE:
                    yield source, to, body[:n], s, body[n + 1:]

    def moved(self, s):
        """The local that a statement copies whole, or hands to a call that makes its result of it."""
        if s[0] == 'assign' and s[2][0] == 'opd':
            return whole(s[2][1])
        owned = s[0] == 'call' and self.program.storage[s[1]].owned
        return whole(s[2][owned - 1]) if owned else None

    def join_results(self, moves):
        """The result of a call that is only moved on is made where it goes."""
        for i, to, before, s, _ in moves:
            made = before[-1] if before else ['']
            if made[0] == 'call' and self.program.storage[made[1]].large and whole(made[3]) == i:
                if mentions(self.function.body, i) == 2 and mentions([made, s], to) == 1:
                    self.same[i] = to

    def join_moved(self, moves):
        """A value that nothing uses again is changed where it lies."""
        f = self.function
        for i, to, _, s, after in moves:
            i, to = self.local(i), self.local(to)
            later = [s[2], after]
            if i == to or i <= f.params or f.in_memory[i] < f.in_memory[to] or after[-1:] != [['return']]:
                continue
            if self.mentions(i, later) == 1 and self.mentions(to, f.body) == self.mentions(to, [s, after]) \
                    and not any(mentions(later, p) for p in self.pointers_into(i)):
                self.same[to] = i
                self.free.append(s)

    def taken_out(self):
        """Large parts of locals of its own, where both are written once and nobody has an address. In a loop the other could be written again."""
        f = self.function
        own = [s for s in f.statements if target(s) and not (s[0] == 'assign' and s[2][0] == 'opd' and self.is_local(s[2][1], self.local(target(s).local)))]
        written = [self.local(target(s).local) for s in own]
        for s in own if not any(s[0] == 'loop' for s in f.statements) else ():
            i, source = self.local(target(s).local), s[2][1][1] if s[0] == 'assign' and s[2][0] == 'opd' and s[2][1][0] == 'copy' else None
            if whole(target(s)) is None or not source or any(step[0] == 'deref' for step in source.steps):
                continue
            j = self.local(source.local)
            alone = all(k > f.params and k not in self.base and written.count(k) == 1 for k in (i, j))
            lent = any(f.in_memory[k] for k in range(len(f.types)) if self.local(k) in (i, j))
            if alone and not lent and self.program.size(f.types[i]) > LARGE:
                yield i, source

    def is_local(self, operand, i):
        k = whole(operand)
        return k is not None and self.local(k) == i

    def pointers_into(self, i):
        """The locals that may point into local i."""
        found = set()
        while True:
            new = {target(s).local for s in self.function.statements
                   if target(s) and (self.takes_address(s, i) or any(mentions(s[2], p) for p in found))}
            new = {k for k in new if self.program.holds_pointer(self.function.types[k])}
            if new <= found:
                return found
            found |= new

    def is_lent(self, i):
        """A parameter that nothing here writes and whose address nobody takes can be lent. It pays where the function stays one in C, or hands
        the parameter on to one that does: what is small or called once, compilers put into the caller, and a copy there costs nothing."""
        f, program = self.function, self.program
        if f.types[i][0] not in ('named', 'array') or program.size(f.types[i]) <= LENT or f.in_memory[i] or i in self.base:
            return False
        if any(target(s) and target(s).local == i for s in f.statements):
            return False
        calls = [s for s in f.statements if s[0] == 'call']
        if calls and program.sites[f.symbol] > 1:
            return True
        return any(whole(s[2][k - 1]) == i for s in calls for k in program.storage[s[1]].lent)

    def takes_address(self, s, i):
        return s[0] == 'assign' and s[2][0] == 'addrOf' and self.local(s[2][1].local) == i

    def place_result(self):
        """Finds the locals that may lie in the result from the start, where every write of it is whole and ends the function."""
        f = self.function
        writes = [s for s in f.statements if target(s) and target(s).local == 0]
        ended = sum(any(a is w for w in writes) and b == ['return'] for body in bodies(f.body) for a, b in zip(body, body[1:]))
        if ended != len(writes) or any(target(s).steps for s in writes):
            return
        sources = {whole(s[2][1]) if s[0] == 'assign' and s[2][0] == 'opd' else None for s in writes}
        if len(sources) == 1 and None not in sources:
            self.result_is(sources.pop())
        elif len(writes) == 1 and writes[0][0] == 'call':
            self.result_of_call(writes[0])
        elif len(writes) == 1 and writes[0][2][0] == 'aggregate' and f.types[0][0] == 'named':
            self.result_of_fields(writes[0][2][1])

    def own(self, parameter):
        self.owned, self.base[parameter] = parameter, '*result'

    def result_is(self, source):
        """The result is one local."""
        f, first = self.function, self.function.body[0]
        if source <= f.params:
            if f.types[source] == f.types[0]:
                self.own(source)
            return
        self.base[source] = '*result'
        parameter = whole(first[2][1]) if first[0] == 'assign' and whole(first[1]) == source and first[2][0] == 'opd' else None
        if parameter and parameter <= f.params and mentions(f.body, parameter) == 1:
            self.own(parameter)

    def result_of_call(self, call):
        """The result is that of a call, which makes it of a parameter."""
        owned = self.program.storage[call[1]].owned
        parameter = whole(call[2][owned - 1]) if owned else None
        if parameter and parameter <= self.function.params:
            self.own(parameter)

    def result_of_fields(self, operands):
        """The result is a struct: a large field lies in it from the start, and so does the value that it was made of."""
        f = self.function
        for (name, type_), operand in zip(self.program.shapes.fields(f.types[0][1]), operands):
            field = whole(operand)
            if not field or field <= f.params or f.types[field] != type_ or self.program.size(type_) <= LARGE:
                continue
            self.base[field] = 'result->' + name
            makers = [n for n, s in enumerate(f.body) if s[0] == 'assign' and whole(s[1]) == field and s[2][0] == 'opd']
            source = whole(f.body[makers[0]][2][1]) if makers else None
            if source and source > f.params and mentions(f.body, field) == 2 and not mentions(f.body[makers[0] + 1:], source):
                self.base[source] = self.base[field]
