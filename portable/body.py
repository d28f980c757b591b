"""One function: its statements as C.

A temporary that is always used exactly once, before anything else happens, is put in where it is used: its assignment waits in `pending`.
What shows that it must not be put in is noted, and the function is translated again:

- A statement comes while it waits, or it is used where it does not wait: it is no such temporary (`spoilt`).
- C would not keep the order of a call and a read: this one assignment is made where it stands (`keeping`). Its use must come in the same
  body, where nothing else can have set the temporary."""
import re

from copies import LARGE
from exprs import Expr, mixed
from idioms import library
from layout import Lines, fold
from mir import Place, in_order, mentions, parts, refuse, target, whole
from returns import ends
from shapes import c_name, safe
from values import Values


def is_left(body, depth=0):
    """Whether an exit inside the body of a block leaves the block."""
    inner = [(s, depth + (s[0] in ('block', 'loop'))) for s in body]
    return any(s == ['exit', depth] or any(is_left(part, at) for part in parts(s)) for s, at in inner)


class Body(Values):
    def __init__(self, program, function):
        super().__init__(program, function)
        self.exported = function.symbol in program.entries
        self.local_names = self.choose_names()
        self.large_targets = {s[3].local for s in function.statements if self.is_large(s)}
        written = [whole(target(s)) for s in function.statements if target(s)]
        self.unread = {i for i in written if i and mentions(function.body, i) == written.count(i)}
        self.candidates = {i for i in range(len(self.types)) if self.is_candidate(i)}

    def choose_names(self):
        """The sources' names of the parameters, and of the locals where they can be told: MIR has the bound ones first, in their order, behind the
        arrays that come as values."""
        f, sources = self.function, self.program.sources
        names = ['result'] + self.shapes.named(f.symbol, f.params, 'p')
        bound = sources.locals.get(f.symbol, [])
        made = [whole(target(s)) for s in in_order(f.body) if target(s) and whole(target(s)) is not None]
        names += [f't{i}' for i in self.taken()]
        own = [len(names) + k for k, name in enumerate(bound) if name]
        firsts = [made.index(i) for i in own if i in made]
        if len(firsts) == len(own) and firsts == sorted(firsts):
            for name in bound:
                name = safe(name) if name else f't{len(names)}'
                names.append(name if name not in names else f'{name}_{len(names)}')
        return names + [f't{i}' for i in range(len(names), len(self.types))]

    def taken(self):
        """The locals into which arrays that come as values are put at the start. A `let` there that is all of such an array would count as one."""
        f, found = self.function, []
        for s in f.body:
            source = whole(s[2][1]) if s[0] == 'assign' and s[2][0] == 'opd' else None
            if not source or source > f.params or self.types[source][0] != 'array' or whole(s[1]) != f.params + 1 + len(found):
                break
            found.append(whole(s[1]))
        return found

    def is_candidate(self, i):
        """Made and used equally often, in no memory of its own; what the source names stays where it is a number."""
        f, storage = self.function, self.storage
        made = sum(whole(target(s)) == i for s in f.statements if target(s))
        named = sum(p.local == i for p in f.places) + (f.statements.count(['return']) if i == 0 else 0)
        placed = i in storage.base or i in storage.within or i in storage.same or i in storage.same.values() or i in self.large_targets
        kept = i > f.params and not re.fullmatch(r't\d+', self.local_names[i]) and self.types[i][0] in ('int', 'bool')
        return not 0 < i <= f.params and not f.in_memory[i] and not placed and not kept and named == 2 * made

    def translate(self):
        while True:
            self.pending, self.keeping, self.spoilt, self.failed = {}, set(), set(), None
            self.used, self.lines, self.label = set(), Lines(), 0
            self.made, self.kept_in = [0] * len(self.types), {}
            self.run(self.function.body, ())
            if not self.keeping and not self.spoilt:
                break
            self.kept |= self.keeping
            self.candidates -= self.spoilt
        if self.failed:
            refuse('a pointer', self.failed)
        self.head = self.declared()
        self.inner = self.lines.text(self.declarations(), self.opening())

    def text(self, apart):
        return fold(self.head.replace('static', 'static APART', 1) if apart else self.head) + '\n' + self.inner

    # ---- head

    def declared(self):
        f, c_type = self.function, self.shapes.c_type
        params = [f'{c_type(self.types[0])} *result'] if self.storage.large else []
        for i in range(1, f.params + 1):
            if i != self.storage.owned:
                params += self.parameter(('ref', 'imm', self.types[i]) if i in self.storage.lent else self.types[i], self.local_names[i])
        if self.exported and self.types[0][0] not in ('int', 'bool', 'unit'):
            refuse('an exported function that gives', self.types[0])
        result = 'void' if self.storage.large else c_type(self.types[0])
        name = f'{result} {f.symbol.split("::")[-1]}' if self.exported else f'static {result} {c_name(f.symbol)}'
        return f'{name}({", ".join(params) or "void"})'

    def parameter(self, type_, name):
        """One parameter in C. C passes a slice to an exported function as two, as the header declares them."""
        if self.exported and type_[0] == 'slice':
            return [self.shapes.member(('ref',) + type_[1:], name + '_ptr')[:-1], f'size_t {name}_len']
        if self.exported and type_[0] not in ('int', 'bool'):
            refuse('an exported function with a parameter of', type_)
        return [self.shapes.member(type_, name)[:-1]]

    def opening(self):
        """The slices of an exported function, and the parameters that nothing reads. NULL + 0 is not defined in C, so an empty slice points
        to a local."""
        slices = [i for i in range(1, self.function.params + 1) if self.types[i][0] == 'slice'] if self.exported else []
        lines = sorted({f'{self.shapes.c_type(self.types[i][2])} none_{self.shapes.short(self.types[i][2])} = 0;' for i in slices})
        for i in slices:
            c, name = self.shapes.c_type(self.types[i]), self.local_names[i]
            none = f'none_{self.shapes.short(self.types[i][2])}'
            lines.append(f'{c} {name} = MAKE({c}){{ {name}_ptr != NULL ? {name}_ptr : &{none}, {name}_len }};')
        ignored = [i for i in range(1, self.function.params + 1) if i not in self.used and i != self.storage.owned]
        return lines + [f'(void){self.local_names[i]};' for i in ignored]

    def declarations(self):
        """Name: declaration, of each local of its own."""
        return {self.local_names[i]: self.shapes.member(self.types[i], self.local_names[i])[:-1] for i in self.own_locals()}

    def own_locals(self):
        return [i for i in sorted(self.used) if not 0 < i <= self.function.params and i not in self.constants and i not in self.storage.base]

    def is_roomy(self):
        """It has large locals."""
        return any(self.program.size(self.types[i]) > LARGE for i in self.own_locals())

    # ---- statements

    def run(self, body, targets):
        """targets: what `exit` counts, innermost last: ('loop' or 'block', label, whether `continue` or `break` reaches it)"""
        for s in body:
            self.here = body
            if s[0] in ('block', 'loop', 'exit'):
                self.flush()
            getattr(self, 'do_' + s[0])(s, targets)
        self.flush()

    def flush(self):
        """Nothing may wait any longer."""
        self.spoilt |= set(self.pending)
        self.pending = {}

    def do_assign(self, s, _):
        type_ = self.place_type(s[1])[0]
        if type_ == ('unit',):
            if s[2][0] != 'opd':
                refuse('a unit value', s[2])
            return
        self.assign(s[1], self.value(s[2], type_))

    def assign(self, place, e):
        i = whole(place)
        if i is not None:
            self.spoilt |= {i} & set(self.pending)
            self.made[i] += 1
            if i in self.candidates and (i, self.made[i]) not in self.kept:
                if e.fill is not None:
                    refuse('a value that waits,', e.text)
                e.own = (i, self.made[i])
                e.temps |= {e.own}
                self.pending[i] = e
                return
            self.kept_in[i, self.made[i]] = self.here
        if i in self.unread:
            self.flush()
            self.lines.put(f'(void){e.inner()};')
            return
        to = self.place(place)
        if e.fill is not None:
            self.flush()
            self.lines.put(f'memset(&{to.text}, {e.fill}, sizeof {to.text});')
            return
        if e.kind == 'calls' and any(step[0] == 'deref' for step in place.steps):
            self.keep(e)
        self.flush()
        others = [(name, text, part) for name, text, part in e.fields or () if text != f'result->{name}']
        if e.fields and to.text == '*result' and all(part.kind == 'stable' for _, _, part in others):
            for name, text, _ in others:  # field by field, as none is read from what is written
                self.lines.put(f'result->{name} = {text};')
        elif place.local not in self.constants and to.text != e.text:
            self.lines.put(f'{to.text} = {e.text};')

    def do_return(self, _s, _targets):
        if self.types[0] == ('unit',) or self.storage.large:
            self.flush()
            self.lines.put('return;')
        else:
            e = self.place(Place(0, ()))
            self.flush()
            self.lines.put(f'return {e.text};')

    def do_call(self, s, targets):
        _, symbol, operands, place = s
        callee = self.program.functions[symbol]
        arguments = [self.operand(o) for o in operands]
        self.separate(arguments)
        if len(arguments) != callee.params:
            refuse('the number of arguments of', s)
        if self.is_large(s):
            self.call_large(s, callee, arguments, targets)
            return
        if symbol in self.program.tables:
            e = Expr(self.program.tables[symbol], callee.types[0])
        else:
            texts = ', '.join(self.argument(a, k, callee) for k, a in enumerate(arguments, 1))
            e = mixed(Expr(f'{c_name(symbol)}({texts})', callee.types[0], 'calls'), *arguments)
        if callee.types[0] == ('unit',):
            self.flush()
            self.lines.put(e.text + ';')
        elif place.steps:  # C may take the address before the call, MIR takes it after
            refuse('the result of a call to a part', s)
        else:
            self.assign(place, self.convert(e, self.types[place.local]))

    def do_library(self, s, _):
        """A method of slices: to, and from what or with what."""
        _, name, operands = s
        to, other = map(self.operand, operands)
        self.separate([to, other])
        item = to.type[2]
        wanted = ('slice', 'imm', item) if name == 'copy' else item
        called, text = library(name, self.shapes.c_type(to.type), self.shapes.c_type(wanted), self.shapes.short(item))
        self.program.helpers |= {text}
        e = mixed(Expr(f'{called}({to.text}, {self.convert(other, wanted).text})', ('unit',), 'calls'), to, other)
        self.flush()
        self.lines.put(e.text + ';')

    def argument(self, e, k, callee):
        """e as the k-th argument of a call. A lent one is a pointer: to a local that only the caller can change, which waits for the call.
        Any other value gets such a local in the next round."""
        e = self.convert(e, callee.types[k])
        if k not in self.program.storage[callee.symbol].lent:
            return e.text
        if e.own_place:
            return e.text[1:] if e.text[0] == '*' else '&' + e.inner()
        if not e.own:
            refuse('a part of memory as an argument,', e.text)
        self.keep(e)
        return e.text

    def is_large(self, s):
        return s[0] == 'call' and self.program.storage[s[1]].large and s[1] not in self.program.tables

    def call_large(self, s, callee, arguments, targets):
        """A call whose result the callee writes to its place, perhaps early: nothing else that is passed may reach that place."""
        storage = self.program.storage[callee.symbol]
        if s[3].steps or self.types[s[3].local] != callee.types[0]:
            refuse('the result of a call to a part', s)
        to = self.place(s[3])
        own = arguments[storage.owned - 1] if storage.owned else None
        rest = [(k, a) for k, a in enumerate(arguments, 1) if k != storage.owned]
        if self.may_reach(s, to, own, [a for _, a in rest], targets):
            refuse('the result of a call to a place that the call may reach', s)
        self.flush()
        if own and own.text != to.text:
            self.lines.put(f'{to.text} = {self.convert(own, callee.types[storage.owned]).text};')
        texts = [to.text[1:] if to.text[0] == '*' else '&' + to.text] + [self.argument(a, k, callee) for k, a in rest]
        self.lines.put(f'{c_name(callee.symbol)}({", ".join(texts)});')

    def may_reach(self, s, to, own, rest, targets):
        f, i = self.function, self.storage.local(s[3].local)
        before = f.statements[:next(n for n, one in enumerate(f.statements) if one is s)]
        lent = any(self.storage.takes_address(one, i) for one in before)
        if f.in_memory[i] and (lent or targets) and not any(s is one for one in self.storage.free):
            return True
        name = re.match(r'\W*(\w+)', to.text)[1]
        inside = [a for a in rest if re.search(rf'\b{name}\b', a.text)]
        return any(a.type[0] not in ('int', 'bool') for a in inside) or bool(inside) and (own is None or own.text != to.text)

    # ---- control

    def do_if(self, s, targets):
        condition = self.operand(s[1])
        self.flush()
        negated = condition.negated or '!' + condition.inner()
        _, _, yes, no = s
        leaves = [['exit', 1]]
        if self.lines.in_new_loop() and targets[-2:] and targets[-2][2] and (yes, no) in (([], leaves), (leaves, [])):
            self.lines.loop_while(condition.text if no else negated)
            return
        self.lines.open(f'if ({condition.text if yes else negated}) {{')
        self.run(yes or no, targets)
        if yes and no:
            self.lines.close('} else {')
            self.lines.deeper()
            self.run(no, targets)
        self.lines.close('}')

    def do_switch(self, s, targets):
        _, operand, arms, default = s
        number = self.operand(operand)
        self.flush()
        symbol = number.type[1] if number.type[0] == 'tag' else None
        self.lines.open(f'switch ({number.text}) {{')
        inside = tuple((kind, label, at_hand and kind == 'loop') for kind, label, at_hand in targets)
        labels = [[self.shapes.tag(symbol, k) if symbol else f'{k}u' for k in keys] for keys, _ in arms]
        bodies = [body for _, body in arms] + ([default] if default is not None else [])
        texts = [' '.join(f'case {one}:' for one in keys) for keys in labels] + ['default:']
        if default is None:  # no other number comes: the last arm takes its place, so that no compiler sees a way around
            texts[-2:] = [f'default: /* {", ".join(labels[-1])} */']
        for text, body in zip(texts, bodies):
            self.arm(text, body, inside)
        self.lines.close('}')

    def arm(self, label, body, targets):
        self.lines.label(label)
        self.run(body, targets)
        if not ends(body):
            self.lines.put('break;')

    def do_block(self, s, targets):
        """A block around a loop alone is one with it, and any other that is left early a loop of one turn: leaving either is `break`."""
        self.label += 1
        label = f'end_{self.label}'
        around = len(s[1]) == 1 and s[1][0][0] == 'loop'
        if not around and not is_left(s[1]):
            self.run(s[1], targets + (('block', label, False),))
            return
        inside = tuple((kind, name, False) for kind, name, _ in targets) + (('block', label, True),)
        if around:
            self.lines.open('for (;;) {')
            self.run(s[1][0][1], inside + (('loop', None, True),))
            self.lines.close('}')
        else:
            self.lines.open('do {')
            self.run(s[1], inside)
            self.lines.close('} while (0);')
        if self.lines.has(f'goto {label};'):
            self.lines.label(f'{label}:;')

    def do_loop(self, s, _):
        refuse('a loop without a block around it', s)

    def do_exit(self, s, targets):
        """exit counts blocks and loops: 0 in a loop is its next turn."""
        if s[1] >= len(targets):
            refuse('an exit', s)
        kind, label, at_hand = targets[-1 - s[1]]
        if kind == 'loop' and not at_hand:
            refuse('an exit to the next turn of an outer loop', s)
        self.lines.put('continue;' if kind == 'loop' else 'break;' if at_hand else f'goto {label};')
