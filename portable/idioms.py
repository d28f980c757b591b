"""Functions that C says in a form of its own: an array of constants, a copy of bytes, methods of slices, and a number of four bytes, read or
written."""
from layout import fold
from mir import Place, calls, whole
from shapes import c_name

BYTE = ('int', 8)


def table(function, shapes):
    """A function that only gives an array of constants is that array, in read-only memory."""
    body = function.body
    if function.params or len(body) != 2 or body[0][0] != 'assign' or whole(body[0][1]) != 0 or body[0][2][0] != 'aggregate':
        return None
    values, type_ = body[0][2][1], function.types[0]
    if type_[0] != 'array' or any(v[0] != 'int' for v in values) or len(values) != type_[2]:
        return None
    return constants(type_, [v[2] for v in values], shapes, c_name(function.symbol))


def constants(type_, numbers, shapes, name):
    """An array of constants in read-only memory."""
    width = type_[1][1]
    texts = [f'0x{n:0{width // 4}X}u' if width < 64 else f'UINT64_C(0x{n:016X})' for n in numbers]
    row = {8: 16, 16: 12, 32: 8, 64: 4}[width]
    rows = ',\n    '.join(', '.join(texts[i:i + row]) for i in range(0, len(texts), row))
    return f'static const {shapes.c_type(type_)} {name} = {{ {{\n    {rows}\n}} }};'


def copy(function, shapes):
    """A function that only copies all bytes of its second parameter to its first is a call of memcpy. The two do not overlap, as the first is
    lent as `&mut`, and by the proofs it is long enough."""
    types = [('unit',), ('slice', 'mut', BYTE), ('slice', 'imm', BYTE)]
    if function.params != 2 or function.types[:3] != types or function.body != COPY:
        return None
    to, source = shapes.named(function.symbol, 2, 'p')
    head = f'static void {c_name(function.symbol)}({shapes.c_type(types[1])} {to}, {shapes.c_type(types[2])} {source})'
    return fold(head) + f'\n{{\n    memcpy({to}.ptr, {source}.ptr, {source}.len);\n}}'


def library(name, to, other, item):
    """The C name and the text of a method of slices."""
    if name == 'copy':
        lines = ['memcpy(to.ptr, from.ptr, from.len * sizeof *from.ptr);' if item != 'u8' else 'memcpy(to.ptr, from.ptr, from.len);']
        return f'copy_{item}', '\n'.join([f'static void copy_{item}({to} to, {other} from)', '{', *(f'    {one}' for one in lines), '}'])
    lines = ['memset(to.ptr, with, to.len);'] if item == 'u8' else ['size_t i;', '', 'for (i = 0; i < to.len; i++) {', '    to.ptr[i] = with;', '}']
    return f'fill_{item}', '\n'.join([f'static void fill_{item}({to} to, {other} with)', '{', *(f'    {one}' if one else '' for one in lines), '}'])


# Compilers for machines that may not be asked for four bytes at any address do not see that four bytes in a row are one number. memcpy they do.
FOUR_BYTES = '''/* A number of 32 bits in four bytes, low byte first: as it is in the memory of most machines, else byte by byte. */
#if defined(__BYTE_ORDER__) && defined(__ORDER_LITTLE_ENDIAN__) && __BYTE_ORDER__ == __ORDER_LITTLE_ENDIAN__
static uint32_t load_u32(const uint8_t *from)
{
    uint32_t x;
    memcpy(&x, from, sizeof x);
    return x;
}

static void store_u32(uint8_t *to, uint32_t x)
{
    memcpy(to, &x, sizeof x);
}
#else
static uint32_t load_u32(const uint8_t *from)
{
    return (uint32_t)from[0] | (uint32_t)from[1] << 8 | (uint32_t)from[2] << 16 | (uint32_t)from[3] << 24;
}

static void store_u32(uint8_t *to, uint32_t x)
{
    to[0] = (uint8_t)(x & 255u);
    to[1] = (uint8_t)(x >> 8 & 255u);
    to[2] = (uint8_t)(x >> 16 & 255u);
    to[3] = (uint8_t)(x >> 24);
}
#endif'''


def load(function, shapes, functions):
    """A function that only gives the number of the four bytes of a slice from an index on. It calls one that makes a byte wider."""
    types = [('int', 32), ('slice', 'imm', BYTE), ('int', 64)]
    wider = [functions[symbol] for symbol in set(calls(function)) if symbol in functions]
    if function.params != 2 or function.types[:3] != types or [(w.types, w.body) for w in wider] != [([('int', 32), BYTE], WIDER)]:
        return None
    if function.body != four_loaded(wider[0].symbol):
        return None
    source, at = shapes.named(function.symbol, 2, 'p')
    head = f'static uint32_t {c_name(function.symbol)}({shapes.c_type(types[1])} {source}, uint64_t {at})'
    return fold(head) + f'\n{{\n    return load_u32(&{source}.ptr[{at}]);\n}}'


def store(function, shapes):
    """A function that only writes a number to the four bytes of a slice from an index on."""
    types = [('unit',), ('slice', 'mut', BYTE), ('int', 64), ('int', 32)]
    if function.params != 3 or function.types[:4] != types or function.body != FOUR_STORED:
        return None
    to, at, x = shapes.named(function.symbol, 3, 'p')
    head = f'static void {c_name(function.symbol)}({shapes.c_type(types[1])} {to}, uint64_t {at}, uint32_t {x})'
    return fold(head) + f'\n{{\n    store_u32(&{to}.ptr[{at}], {x});\n}}'


def local(i, *steps):
    return Place(i, steps)


def value(i, *steps):
    return ('copy', local(i, *steps))


POINTER, LENGTH, AT = ('field', 0), ('field', 1), ('deref', BYTE)

# `for i in 0..source.len() { to[i] = source[i]; }`: to and source are locals 1 and 2, i is 3
COPY = [
    ['assign', local(3), ('opd', ('int', 64, 0))],
    ['assign', local(4), ('opd', value(2, LENGTH))],
    ['block', [['loop', [
        ['assign', local(5), ('op2', ('Lt', 'Unsigned'), value(3), value(4))],
        ['if', value(5), [], [['exit', 1]]],
        ['assign', local(6), ('op2', ('Offset',), value(2, POINTER), value(3))],
        ['assign', local(7), ('opd', value(6, AT))],
        ['assign', local(8), ('op2', ('Offset',), value(1, POINTER), value(3))],
        ['assign', local(8, AT), ('opd', value(7))],
        ['assign', local(3), ('op2', ('Add', 'Unsigned'), value(3), ('int', 64, 1))],
    ]]]],
    ['assign', local(0), ('opd', ('unit',))],
    ['return'],
]


def op2(to, operator, a, b):
    return ['assign', local(to), ('op2', operator, a, b)]


def op1(to, operator, a):
    return ['assign', local(to), ('op1', operator, a)]


ADD, MUL, DIV, REM = (('Add', 'Unsigned'), ('Mul', 'Unsigned'), ('Div', 'Unsigned'), ('Rem', 'Unsigned'))

# `x as u32`, of a byte
WIDER = [op1(0, ('Cast', 'Unsigned', 'Unsigned', 32), value(1)), ['return']]


def four_loaded(wider):
    """`wider(s[at]) + 256 * wider(s[at + 1]) + 65536 * wider(s[at + 2]) + 16777216 * wider(s[at + 3])`: s and at are locals 1 and 2."""
    def byte(to, at, pointer):
        return [op2(pointer, ('Offset',), value(1, POINTER), value(at)), ['assign', local(pointer + 1), ('opd', value(pointer, AT))],
                ['call', wider, (value(pointer + 1),), local(to)]]

    body = byte(3, 2, 4)
    for k, to in ((1, 11), (2, 17), (3, 0)):
        i = 6 * k
        body += [op2(i + 1, ADD, value(2), ('int', 64, k)), *byte(i, i + 1, i + 2), op2(i + 4, MUL, ('int', 32, 256 ** k), value(i)),
                 op2(to, ADD, value(3 if k == 1 else i - 1), value(i + 4))]
    return body + [['return']]


def four_stored():
    """`s[at] = (v % 256) as u8; s[at + 1] = (v / 256 % 256) as u8;` and two more: s, at and v are locals 1, 2 and 3."""
    def byte(rest, at, pointer):
        return [op1(5, ('Cast', 'Unsigned', 'Unsigned', 8), value(rest)), *at, op2(pointer, ('Offset',), value(1, POINTER), value(8 if at else 2)),
                ['assign', local(pointer, AT), ('opd', value(5))]]

    body = [op2(4, REM, value(3), ('int', 32, 256)), *byte(4, [], 6)]
    for k, pointer in ((1, 9), (2, 10), (3, 11)):
        body += [op2(4, DIV, value(3), ('int', 32, 256 ** k)), op2(7, REM, value(4), ('int', 32, 256)),
                 *byte(7, [op2(8, ADD, value(2), ('int', 64, k))], pointer)]
    return body + [['assign', local(0), ('opd', ('unit',))], ['return']]


FOUR_STORED = four_stored()
