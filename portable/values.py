"""The values of one function: its places, operands and right-hand sides as C expressions."""
from exprs import HELPERS, OP1, OP2, Expr, apply, cast, mixed, number
from mir import Place, mentions, refuse, target, whole

BYTES = {('bool',): 1, **{('int', width): width // 8 for width in (8, 16, 32, 64)}}


class Values:
    def __init__(self, program, function):
        self.program, self.function, self.shapes = program, function, program.shapes
        self.storage = program.storage[function.symbol]
        self.types = list(function.types)
        self.constants = self.constant_locals()
        self.type_raw_pointers()
        self.candidates, self.kept = set(), set()

    # ---- before

    def constant_locals(self):
        """Locals in memory that only ever hold the array of a table and are only lent as `&`: they need no copy. Local: table."""
        f, found = self.function, {}
        for i, in_memory in enumerate(f.in_memory):
            writes = [s for s in f.statements if target(s) and target(s).local == i]
            lent = [s for s in f.statements if s[0] == 'assign' and s[2][0] == 'addrOf' and whole(s[2][1]) == i
                    and self.types[s[1].local][:2] == ('ref', 'imm')]
            if not in_memory or len(writes) != 1 or mentions(f.body, i) != 1 + len(lent):
                continue
            if writes[0][0] == 'assign' and writes[0][2][0] == 'opd' and not writes[0][1].steps:
                source = whole(writes[0][2][1])
                makers = [s for s in f.statements if target(s) and target(s).local == source]
                if source and len(makers) == 1 and makers[0][0] == 'call' and makers[0][1] in self.program.tables:
                    found[i] = self.program.tables[makers[0][1]]
        return found

    def type_raw_pointers(self):
        """Gives each raw pointer the one type that it is used at, and const where it comes from a `&`."""
        for s in self.function.statements:
            if s[0] != 'assign' or s[1].steps or self.types[s[1].local] != ('raw',):
                continue
            if s[2][0] == 'addrOf':
                type_, mutability = self.place_type(s[2][1])
            elif s[2][0] == 'op2' and s[2][1] == ('Offset',):
                _, mutability, type_ = self.place_type(s[2][2][1])[0]
            else:
                refuse('a raw pointer made by', s)
            at = {p.steps[0][1] for p in self.function.places if p.local == s[1].local and p.steps}
            if len(at) > 1:
                refuse('a raw pointer used at two types in', self.function.symbol)
            self.types[s[1].local] = ('ref', mutability, at.pop() if at else type_)

    def place_type(self, place):
        """The type of a place, and whether it may be written."""
        type_, mutability = self.types[place.local], 'mut'
        for step in place.steps:
            if step[0] == 'deref':
                if type_[0] != 'ref':
                    refuse('a step through', type_)
                type_, mutability = step[1], type_[1]
            else:
                type_ = self.step(type_, step)[1]
        return type_, mutability

    def step(self, type_, step):
        """A field or a variant: the C text behind the value's, and the type. A variant is the same place, seen as tag and fields."""
        name, k = step
        if name == 'field' and type_[0] == 'slice':
            return [('.ptr', ('ref',) + type_[1:]), ('.len', ('int', 64))][k]
        if name == 'field' and type_[0] == 'variant':
            if k == 0:
                return '' if self.shapes.is_plain(type_[1]) else '.tag', ('tag', type_[1])
            variant, types = self.shapes.variants(type_[1])[type_[2]]
            if k > len(types):
                refuse(f'field {k} of the variant {variant} of', type_[1])
            return '.' + self.shapes.inside(type_[1], type_[2], k - 1), types[k - 1]
        if name == 'field' and type_[0] == 'named':
            field, t = self.shapes.fields(type_[1])[k]
            return '.' + field, t
        if name == 'variant' and type_[0] == 'named':
            return '', ('variant', type_[1], k)
        return refuse(f'the step {name} in', type_)

    # ---- places and operands

    def place(self, place):
        i = self.storage.local(place.local)
        if i in self.storage.within:
            at = self.storage.within[i]
            return self.place(Place(at.local, at.steps + place.steps))
        if i in self.pending:
            at = self.pending.pop(i)
        else:
            if i in self.candidates and self.kept_in.get((i, self.made[i])) is not self.here:
                self.spoilt.add(i)
            self.used.add(i)
            name = ('*' if i in self.storage.lent else '') + self.local_names[i]
            text = self.storage.base.get(i) or self.constants.get(i) or name
            shared = self.function.in_memory[i] or i in self.storage.base
            at = Expr(text, self.types[i], 'reads' if shared else 'stable', text[0] != '*', own_place=not self.function.in_memory[place.local])
        for step in place.steps:
            at = mixed(self.through(at, step[1]) if step[0] == 'deref' else self.inside(at, step), at)
        return at

    def through(self, at, type_):
        """What a pointer points to."""
        if at.type[0] != 'ref':
            refuse('a step through', at.type)
        at = self.convert(at, ('ref', at.type[1], type_))
        return mixed(Expr(at.deref or '*' + at.inner(), type_, 'reads', bool(at.deref), address=at.kind), at)

    def inside(self, at, step):
        text, type_ = self.step(at.type, step)
        if not text:
            return Expr(at.text, type_, at.kind, at.atom, address=at.address, own_place=at.own_place)
        text = f'{at.text[1:]}->{text[1:]}' if at.text[0] == '*' else at.inner() + text
        return Expr(text, type_, at.kind, address=at.address, own_place=at.own_place, short=at.type[0] == 'slice' and step[1] == 1)

    def operand(self, operand):
        if operand[0] == 'copy':
            return self.place(operand[1])
        if operand[0] == 'int':
            return number(operand[2], operand[1])
        if operand[0] == 'bool':
            return Expr('true' if operand[1] else 'false', ('bool',), constant=operand[1])
        return refuse('the operand', operand)

    def is_unit(self, operand):
        return operand[0] == 'unit' or operand[0] == 'copy' and not operand[1].steps and self.types[operand[1].local] == ('unit',)

    def convert(self, e, type_):
        """e as a value of the type. Pointers to an array's first element, `&mut` as `&` and an enum's tag as a number are all that
        changes."""
        if e.type == type_:
            return e
        if e.type[0] == 'tag' and type_ == ('int', 8):
            return mixed(cast(e, 8), e)
        if e.type[0] == type_[0] == 'ref' and type_[1] in (e.type[1], 'imm'):
            if e.type[2] == type_[2]:
                return e
            if e.type[2][0] == 'array' and e.type[2][1] == type_[2]:
                text = e.deref + '.a' if e.deref else e.inner() + '->a'
                return mixed(Expr(text, type_, e.kind, deref=text + '[0]'), e)
        return refuse(f'a value of type {e.type} as one of', type_)

    def number(self, e):
        return self.convert(e, ('int', 8)) if e.type[0] == 'tag' else e

    # ---- right-hand sides

    def value(self, term, type_):
        operands = {'opd': term[1:], 'op1': term[2:], 'op2': term[2:], 'aggregate': term[1], 'repeat': term[1:2], 'addrOf': (), 'static': ()}[term[0]]
        parts = [self.operand(o) for o in operands if not self.is_unit(o)]
        self.separate(parts)
        if term[0] == 'addrOf':
            return self.convert(self.address(term[1]), type_)
        if term[0] == 'opd':
            return self.convert(parts[0], type_)
        if term[0] == 'static':
            name = self.program.static(*term[1:])
            return self.convert(Expr('&' + name, ('ref', 'imm', term[1]), atom=False, deref=name), type_)
        if term[0] == 'op2' and term[1] == ('Offset',):
            e = self.offset(*parts, type_[2])
        elif term[0] == 'op2':
            e = apply(OP2, term[1], *map(self.number, parts))
        elif term[0] == 'op1':
            self.program.helpers |= {HELPERS[term[1]]} if term[1] in HELPERS else set()
            e = apply(OP1, term[1], *map(self.number, parts))
        elif term[0] == 'aggregate':
            e = self.aggregate(parts, type_)
        else:
            e = self.repeat(parts[0], term[2], type_)
        return self.convert(mixed(e, *parts), type_)

    def address(self, place):
        """To take an address reads what leads to the place, not the place."""
        at = self.place(place)
        type_ = ('ref', self.place_type(place)[1], at.type)
        if at.text.startswith('*'):
            e = Expr(at.text[1:], type_, at.address)
        elif at.text.endswith('.a[0]'):
            e = Expr(at.text.removesuffix('[0]'), type_, at.address, deref=at.text)
        else:
            e = Expr('&' + at.inner(), type_, at.address, atom=False, deref=at.text)
        e.temps |= at.temps
        return e

    def offset(self, base, n, type_):
        """A pointer, n bytes on: n is a product with the size of what it points to, and counts elements in C."""
        if type_ not in BYTES:
            refuse('an offset to', type_)
        base, size = self.convert(base, ('ref', base.type[1], type_)), BYTES[type_]
        if size == 1:
            index = n.text
        elif n.times and n.times[1] == size:
            index = n.times[0]
        elif n.constant is not None and n.constant % size == 0:
            index = f'{n.constant // size}u'
        else:  # in this round; in the last one the product must be put in
            index, self.failed = n.text, f'{n.text} bytes on from {base.text} in {self.function.symbol}'
        at = f'{base.inner()}[{index}]'
        return Expr('&' + at, base.type, deref=at, atom=False)

    def aggregate(self, parts, type_):
        if type_[0] == 'named' and self.shapes.declared[type_[1]][0] == 'variants':
            return self.variant(parts, type_)
        names = ()
        if type_[0] == 'slice':
            wanted = [('ref',) + type_[1:], ('int', 64)]
        elif type_[0] == 'array':
            wanted = [type_[1]] * type_[2]
        elif type_[0] == 'named':
            names, wanted = zip(*self.shapes.fields(type_[1]))
        else:
            refuse('an aggregate of', type_)
        if len(wanted) != len(parts):
            refuse('the number of parts of', type_)
        texts = [self.convert(p, t).text for p, t in zip(parts, wanted)]
        if type_[0] == 'slice' and not parts[1].short and parts[1].constant is None:
            texts[1] = f'(size_t){parts[1].inner()}'
        again = self.again(parts, texts, type_)
        if again:
            return again
        c, inner = self.shapes.c_type(type_), ', '.join(texts)
        return Expr(f'MAKE({c}){{ {{ {inner} }} }}' if type_[0] == 'array' else f'MAKE({c}){{ {inner} }}', type_,
                    fields=list(zip(names, texts, parts)))

    def again(self, parts, texts, type_):
        """A slice made of pointer and length of one slice of the same type is that slice."""
        text = texts[0].removesuffix('.ptr')
        if type_[0] == 'slice' and texts == [text + '.ptr', text + '.len'] and parts[0].type == ('ref',) + type_[1:]:
            return Expr(text, type_)
        return None

    def variant(self, parts, type_):
        symbol, k = type_[1], parts[0].constant
        types = self.shapes.variants(symbol)[k][1] if k is not None else None
        if types is None or len(types) != len(parts) - 1:
            refuse('the variant of', symbol)
        tag = self.shapes.tag(symbol, k)
        if self.shapes.is_plain(symbol):
            return Expr(tag, type_)
        texts = [self.convert(p, t).text for p, t in zip(parts[1:], types)]
        places = ['tag'] + [self.shapes.inside(symbol, k, i) for i in range(len(types))]
        return Expr(self.shapes.made(symbol, k, texts), type_, fields=list(zip(places, [tag] + texts, parts)))

    def repeat(self, part, count, type_):
        """C fills an array with zeros by itself, and with another byte by memset; a few copies of true are written out."""
        if type_ != ('array', part.type, count):
            refuse('an array of copies of', part.text)
        if part.constant is True and count <= 16:
            inner = ', '.join(['true'] * count)
        elif part.constant and self.shapes.c_type(part.type) == 'uint8_t':
            return Expr(f'an array of copies of {part.text}', type_, fill=part.constant)
        elif part.constant in (0, False):
            inner = 'false' if part.type == ('bool',) else '0u'
        else:
            refuse('an array of copies of', part.text)
        return Expr(f'MAKE({self.shapes.c_type(type_)}){{ {{ {inner} }} }}', type_)

    def separate(self, parts):
        """C does not say in which order operands are evaluated: a call may not stand beside what calls or reads memory."""
        moving = [p for p in parts if p.kind != 'stable']
        if len(moving) > 1:
            for p in moving:
                if p.kind == 'calls':
                    self.keep(p)

    def keep(self, e):
        """e is not put in where it is used: in the next round it has a variable."""
        self.keeping |= {e.own} if e.own else e.temps
