"""C expressions, and the rule of each operator of MIR. A new operator is a line in OP1 or OP2, and a case in tests/portable/cases."""
from mir import refuse


class Expr:
    """A C expression. kind: 'stable' (constants and locals whose address nobody has), 'reads' (memory too) or 'calls'."""

    def __init__(self, text, type_, kind='stable', atom=True, **more):
        self.text, self.type, self.kind, self.atom = text, type_, kind, atom
        self.negated = more.get('negated')    # the negation, of a comparison
        self.times = more.get('times')        # (text, n) of a product with the constant n
        self.deref = more.get('deref')        # of a pointer: the C lvalue that it points to
        self.constant = more.get('constant')  # the number, of a constant
        self.fields = more.get('fields')      # of a struct or a variant that is made: each field's place in it, text and value
        self.fill = more.get('fill')          # of an array of copies of one byte: that byte
        self.address = more.get('address', 'stable')  # the kind of its address
        self.own_place = more.get('own_place', False)  # it is a local, or a part of one, whose address nobody has
        self.short = more.get('short', False)  # of 64 bits in MIR, a size_t in C: the length of a slice, or what is no more than one
        self.temps = set()                    # the temporaries that were put in, each as (local, number of its assignment)
        self.own = None                       # the temporary that the whole expression is the value of

    def inner(self):
        return self.text if self.atom else f'({self.text})'


def mixed(e, *parts):
    """e, made of the parts: it calls or reads where one of them does."""
    for p in parts:
        e.temps |= p.temps
    kinds = [e.kind] + [p.kind for p in parts]
    e.kind = 'calls' if 'calls' in kinds else 'reads' if 'reads' in kinds else 'stable'
    return e


def number(n, width):
    """A constant. C gives it a type of 32 bits or more, which the rules below cut where it matters."""
    return Expr(f'{n}u' if n < 2 ** 32 else f'UINT64_C({n})', ('int', width), constant=n)


def wide(a, b):
    """a beside b, with 64 bits: a length is a size_t, which b may make wider."""
    return cast(a, 64) if a.short and (b.short or b.constant is not None) else a


def cast(e, width):
    return Expr(f'(uint{width}_t){e.inner()}', ('int', width))


def exact(e):
    """The text of e where C must know its width: a constant has none of its own."""
    return cast(e, e.type[1]).text if e.constant is not None and e.type[0] == 'int' else e.inner()


# ---- two operands. Each rule takes them as expressions of one type.

def typed(a, b, shift=False):
    """The texts of both; a constant on the left takes its type where the right does not give it."""
    return exact(a) if shift or b.constant is not None else a.inner(), b.inner()


def comparison(c, negation, types=('int',)):
    def rule(a, b):
        if a.type[0] not in types:
            refuse(f'the operator {c} on', a.type)
        left, right = typed(a, b)
        return Expr(f'{left} {c} {right}', ('bool',), atom=False, negated=f'{left} {negation} {right}')
    return rule


def arithmetic(c, shift=False, types=('int',), shrinks=False):
    """C computes with int what is smaller than int: such a result is cut to its width. None leaves int: sums and products fit their own
    width, by the proofs, and 16 bits shifted by 15 have 31. A result that is no more than its operands may be as short as they are."""
    def rule(a, b):
        if a.type[0] not in types:
            refuse(f'the operator {c} on', a.type)
        short = shrinks and (a.short or b.short) and all(e.short or e.constant is not None and e.constant < 2 ** 32 for e in (a, b))
        if not shrinks:
            a, b = cast(a, 64) if shift and a.short else wide(a, b), wide(b, a)
        left, right = typed(a, b, shift)
        if a.type == ('bool',):
            return Expr(f'({left} {c} {right}) != 0', a.type, atom=False)
        if a.type[1] < 32:
            return Expr(f'(uint{a.type[1]}_t)({left} {c} {right})', a.type)
        times = (left, b.constant) if c == '*' and b.constant is not None else None
        return Expr(f'{left} {c} {right}', a.type, atom=False, times=times, short=short)
    return rule


def signed_less(a, b):
    """With the sign bit turned, signed numbers have the order of unsigned ones."""
    def turned(e):
        sign = 1 << e.type[1] - 1
        if e.constant is not None:
            return number(e.constant ^ sign, e.type[1])
        return Expr(f'{e.inner()} ^ {number(sign, e.type[1]).text}', e.type, atom=False)
    return comparison('<', '>=')(turned(a), turned(b))


# A signed number is its bits in two's complement, in the unsigned type of its width: a difference has the same bits as an unsigned one.
OP2 = {
    ('Add', 'Unsigned'): arithmetic('+'),
    ('Sub', 'Unsigned'): arithmetic('-', shrinks=True),
    ('Sub', 'Signed'): arithmetic('-'),
    ('Mul', 'Unsigned'): arithmetic('*'),
    ('Div', 'Unsigned'): arithmetic('/', shrinks=True),
    ('Rem', 'Unsigned'): arithmetic('%', shrinks=True),
    ('And',): arithmetic('&', types=('int', 'bool')),
    ('Or',): arithmetic('|', types=('int', 'bool')),
    ('Xor',): arithmetic('^', types=('int', 'bool')),
    ('Shl',): arithmetic('<<', shift=True),
    ('Shr', 'Unsigned'): arithmetic('>>', shift=True),
    ('Eq',): comparison('==', '!=', types=('int', 'bool')),
    ('Ne',): comparison('!=', '==', types=('int', 'bool')),
    ('Lt', 'Unsigned'): comparison('<', '>='),
    ('Lt', 'Signed'): signed_less,
    ('Le', 'Unsigned'): comparison('<=', '>'),
}


# ---- one operand. A rule may name a helper, which the file then has.

LEADING_ZEROS = '''/* The zero bits above the highest one of a number of that many bits. */
static uint32_t leading_zeros(uint64_t x, uint32_t bits)
{
    while (x != 0u) {
        x = x >> 1;
        bits = bits - 1u;
    }
    return bits;
}'''

# In six steps and not bit by bit: reception looks for the lowest free block by it.
TRAILING_ZEROS = '''/* The zero bits below the lowest one of a number of that many bits. */
static uint32_t trailing_zeros(uint64_t x, uint32_t bits)
{
    uint32_t zeros = 0u;
    uint32_t half;
    if (x == 0u) {
        return bits;
    }
    for (half = 32u; half != 0u; half = half / 2u) {
        if ((x & ((UINT64_C(1) << half) - 1u)) == 0u) {
            x = x >> half;
            zeros = zeros + half;
        }
    }
    return zeros;
}'''

# By halves of 32 bits, which are what most small machines compute with: every call of the receiver counts the free blocks.
COUNT_ONES = '''/* The bits of a number that are 1: first of pairs, then of fours and of bytes. */
static uint32_t count_ones_u32(uint32_t x)
{
    x = x - (x >> 1 & 0x55555555u);
    x = (x & 0x33333333u) + (x >> 2 & 0x33333333u);
    x = (x + (x >> 4)) & 0x0F0F0F0Fu;
    x = x + (x >> 8);
    return (x + (x >> 16)) & 63u;
}

static uint32_t count_ones(uint64_t x)
{
    return count_ones_u32((uint32_t)(x & UINT32_MAX)) + count_ones_u32((uint32_t)(x >> 32));
}'''


def negation(a):
    if a.type == ('bool',):
        return Expr(a.negated or '!' + a.inner(), a.type, atom=not a.negated, negated=a.text)
    return Expr(f'(uint{a.type[1]}_t)~{cast(a, 64).text if a.short else exact(a)}', a.type)


def leading_zeros(a):
    return Expr(f'leading_zeros({a.text}, {a.type[1]}u)', ('int', 32))


def trailing_zeros(a):
    return Expr(f'trailing_zeros({a.text}, {a.type[1]}u)', ('int', 32))


def count_ones(a):
    return Expr(f'count_ones({a.text})', ('int', 32))


def same_bits(a):
    """A cast of 64 bits to another sign. By the proofs the number is in both types."""
    return a if a.type == ('int', 64) else cast(a, 64)


OP1 = {
    ('Not',): negation,
    ('LeadingZeros',): leading_zeros,
    ('TrailingZeros',): trailing_zeros,
    ('CountOnes',): count_ones,
    **{('Cast', 'Unsigned', 'Unsigned', width): lambda a, width=width: cast(a, width) for width in (8, 16, 32, 64)},
    ('Cast', 'Unsigned', 'Signed', 64): same_bits,
    ('Cast', 'Signed', 'Unsigned', 64): same_bits,
}
HELPERS = {('LeadingZeros',): LEADING_ZEROS, ('TrailingZeros',): TRAILING_ZEROS, ('CountOnes',): COUNT_ONES}


def apply(rules, operator, *operands):
    """The rule of an operator on its operands."""
    if operator not in rules:
        refuse('the operator', ' '.join(map(str, operator)))
    if operands[0].type[0] not in ('int', 'bool') or any(o.type != operands[0].type for o in operands):
        refuse('the operator ' + ' '.join(map(str, operator)) + ' on', [o.type for o in operands])
    return mixed(rules[operator](*operands), *operands)
