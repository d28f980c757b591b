"""MIR's types in C: numbers and bool as they are, a reference as a pointer, a slice as pointer and length (a size_t, as no slice is longer than
what C can address), an array as a struct (so that it is a value), a struct as a struct, an enum without fields as an enum, and any other as its tag beside a union of the variants' fields."""
import re

from layout import comment
from mir import refuse

KEYWORDS = set('''auto break case char const continue default do double else enum extern float for goto if inline int long register restrict
    return short signed sizeof static struct switch typedef union unsigned void volatile while bool true false and and_eq asm bitand bitor
    catch class compl const_cast constexpr decltype delete dynamic_cast explicit export friend mutable namespace new noexcept not not_eq
    nullptr operator or or_eq private protected public reinterpret_cast static_assert static_cast template this thread_local throw try
    typeid typename using virtual wchar_t xor xor_eq alignas alignof char16_t char32_t NULL'''.split())


def safe(name):
    """A name that is no word of C or C++, nor of the translator."""
    return name + '_' if name in KEYWORDS or re.fullmatch(r't\d+|result|made|none_\w+|end_\d+|leading_zeros|MAKE', name) else name


def c_name(symbol):
    return symbol.replace('::', '_')


class Shapes:
    def __init__(self, declared, sources):
        self.declared, self.sources = declared, sources
        self.definitions = {}  # C name: its text, in order
        self.makers = {}       # name of a function that makes variants: its text

    # ---- names of fields and variants

    def named(self, symbol, count, letter):
        names = self.sources.names.get(symbol, [])
        return [safe(n) for n in names] if len(names) == count else [f'{letter}{i}' for i in range(count)]

    def shape(self, symbol, kind):
        if self.declared.get(symbol, ('',))[0] != kind:
            refuse(f'{kind} of the type', symbol)
        return self.declared[symbol][1]

    def fields(self, symbol):
        types = self.shape(symbol, 'fields')
        return list(zip(self.named(symbol, len(types), 'f'), types))

    def variants(self, symbol):
        types = self.shape(symbol, 'variants')
        return list(zip(self.named(symbol, len(types), 'v'), types))

    def is_plain(self, symbol):
        """An enum none of whose variants has fields."""
        return not any(types for _, types in self.variants(symbol))

    def tag(self, symbol, k):
        return f'{c_name(symbol)}_{self.variants(symbol)[k][0]}'

    # ---- types

    def c_type(self, t):
        if t[0] == 'int':
            return f'uint{t[1]}_t'
        if t[0] == 'bool':
            return 'bool'
        if t[0] == 'unit':
            return 'void'
        if t[0] == 'ref':
            return ('const ' if t[1] == 'imm' else '') + self.c_type(t[2]) + ' *'
        if t[0] == 'slice':
            name = f'slice_{"mut_" if t[1] == "mut" else ""}{self.short(t[2])}'
            return self.define(name, lambda: self.struct([self.member(('ref',) + t[1:], 'ptr'), 'size_t len;']))
        if t[0] == 'array':
            return self.define(f'array_{self.short(t[1])}_{t[2]}', lambda: self.struct([self.member(t[1], f'a[{t[2]}]')]))
        if t[0] == 'named':
            return self.define(c_name(t[1]), lambda: self.declaration(t[1]), comment(self.sources.comments.get(t[1])))
        return refuse('the type', t)

    def short(self, t):
        return f'u{t[1]}' if t[0] == 'int' else self.c_type(t)

    def member(self, t, name):
        c = self.c_type(t)
        return f'{c}{"" if c.endswith("*") else " "}{name};'

    def define(self, name, body, above=''):
        if name not in self.definitions:
            text = body()
            self.definitions[name] = f'{above}typedef {text} {name};'
        return name

    def struct(self, members):
        return 'struct {\n    ' + '\n'.join(members).replace('\n', '\n    ') + '\n}'

    def enumeration(self, symbol):
        return 'enum {\n    ' + ',\n    '.join(self.tag(symbol, k) for k in range(len(self.variants(symbol)))) + '\n}'

    def declaration(self, symbol):
        if self.declared.get(symbol, ('',))[0] == 'fields':
            if not self.fields(symbol):
                refuse('a struct without fields', symbol)
            return self.struct([self.member(t, n) for n, t in self.fields(symbol)])
        if self.is_plain(symbol):
            return self.enumeration(symbol)
        rows = [f'    struct {{ {" ".join(self.member(t, f"f{i}") for i, t in enumerate(types))} }} {name};'
                for name, types in self.variants(symbol) if types]
        tag = self.define(c_name(symbol) + '_tag', lambda: self.enumeration(symbol))
        return self.struct([f'{tag} tag;', 'union {', *rows, '} of;'])

    def inside(self, symbol, k, i):
        """Where in an enum with fields the i-th of its k-th variant is."""
        return f'of.{self.variants(symbol)[k][0]}.f{i}'

    def made(self, symbol, k, texts):
        """The call that makes a variant of an enum with fields. One function makes all variants without; C++ has no compound literal of
        a union's member."""
        self.c_type(('named', symbol))
        name, types = self.variants(symbol)[k]
        c, tag = c_name(symbol), self.tag(symbol, k)
        made = f'make_{tag}' if types else f'make_{c}'
        params = [self.member(t, f'f{i}')[:-1] for i, t in enumerate(types)] or [f'{c}_tag tag']
        fields = [f'made.of.{name}.f{i} = f{i};' for i in range(len(types))]
        lines = [f'    {line}' for line in (f'made.tag = {tag if types else "tag"};', *fields, 'return made;')]
        self.makers[made] = '\n'.join([f'static {c} {made}({", ".join(params)})', '{', f'    {c} made;', '', *lines, '}'])
        return f'{made}({", ".join(texts or [tag])})'

    # ---- what copies.py asks

    def size(self, t):
        """Bytes of a value, without padding."""
        if t[0] == 'named':
            kind, rows = self.declared[t[1]]
            return max((sum(map(self.size, row)) for row in ([rows] if kind == 'fields' else rows)), default=0)
        return t[1] // 8 if t[0] == 'int' else 1 if t[0] == 'bool' else t[2] * self.size(t[1]) if t[0] == 'array' else 8

    def holds_pointer(self, t):
        if t[0] == 'named':
            kind, rows = self.declared[t[1]]
            return any(map(self.holds_pointer, rows if kind == 'fields' else sum(rows, [])))
        return t[0] in ('ref', 'slice', 'raw') or t[0] == 'array' and self.holds_pointer(t[1])
