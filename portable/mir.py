"""MIR, the program that the proofs are about, as the compiler keeps it: toolchain/mir.json in the folder of a proved library, CRATE/out/rlib/CRATE.rlib.

Terms as this translator uses them:

  place      Place(local, steps); a step is ('deref', type), ('field', k) or ('variant', k)
  operand    ('copy', place), ('int', width, number), ('bool', value) or ('unit',)
  value      ('opd', operand), ('op2', operator, operand, operand), ('op1', operator, operand), ('addrOf', place),
             ('aggregate', operands), ('repeat', operand, count) or ('static', type, numbers), which lends an array of constants; an operator
             is (name, argument...)
  statement  ['assign', place, value], ['call', symbol, operands, place], ['if', operand, body, body], ['exit', depth], ['return'],
             ['switch', operand, [(keys, body)...], body or None], ['block', body], ['loop', body] or ['library', name, operands], a call of one of
             LIBRARY; a body is a list of statements
  type       ('int', width), ('bool',), ('unit',), ('raw',), ('ref', 'imm' or 'mut', type), ('slice', 'imm' or 'mut', type),
             ('array', type, length) or ('named', symbol). Lifetimes are dropped: the machine of the proofs does not read them. A type with
             parameters has a symbol for each choice of them: Option_u64 is Option<u64>.

What is not listed here is an error that names it, never a guess."""
import json
import pathlib
from typing import NamedTuple


class Unsupported(Exception):
    pass


def refuse(what, term):
    raise Unsupported(f'not supported: {what} {str(term)[:200]}')


class Place(NamedTuple):
    local: int
    steps: tuple


# ---- reading

def split(term):
    """A JSON term as its constructor and its argument."""
    if isinstance(term, str):
        return term, None
    (name, argument), = term.items()
    return name, argument


# methods of slices that are called at a type, by their names here
LIBRARY = {'core::slice::edits::slice+T::copy_from_slice': 'copy', 'core::slice::edits::slice+T::fill': 'fill'}
GENERIC = {}    # a type with parameters: what declares it
INSTANCES = {}  # symbol of such a type at types: its name and the types
CALLED = {}     # symbol of a generic function at types: the function's own symbol, and the terms of the types and of the traits' impls
METHODS = {}    # an impl of a trait: its methods' symbols
# what `?` makes of a refusal before it returns it: the error alone, or nothing
RESIDUAL = {'core::result::ErrResidual': lambda types: types[0], 'core::option::NoValue': lambda _: ('unit',)}


def word(t):
    """A type as a part of a name."""
    if t[0] == 'int':
        return f'u{t[1]}'
    if t[0] in ('bool', 'unit'):
        return t[0]
    if t[0] in ('ref', 'slice'):
        return f'{t[0]}_{"mut_" if t[1] == "mut" else ""}{word(t[2])}'
    if t[0] == 'array':
        return f'array_{word(t[1])}_{t[2]}'
    return t[1].replace('::', '_') if t[0] == 'named' else refuse('a type at the type', t)


def instance(name, types):
    """The symbol of a type with parameters at these types."""
    head = 'Tuple' if name.strip('(,)') == '' else name.split('::')[-1] if name.startswith('core::') else name
    symbol = '_'.join([head, *map(word, types)])
    if INSTANCES.setdefault(symbol, (name, types)) != (name, types):
        refuse('two types of one name', symbol)
    return symbol


def read_type(term, given=()):
    """given: what the parameters of the declared type stand for in which the term is."""
    name, argument = split(term)
    if name in ('Bool', 'Unit', 'Ptr'):
        return ({'Bool': 'bool', 'Unit': 'unit', 'Ptr': 'raw'}[name],)
    if name == 'Int' and argument in (8, 16, 32, 64):
        return ('int', argument)
    if name == 'Ref':
        return ('ref', argument[1].lower(), read_type(argument[2], given))
    if name == 'Array' and argument[1].get('Lit', 0) > 0:
        return ('array', read_type(argument[0], given), argument[1]['Lit'])
    if name == 'Struct' and argument[0] == '&[]':
        pointer, length = (read_type(t, given) for t in argument[1])
        if pointer[0] == 'ref' and length == ('int', 64):
            return ('slice',) + pointer[1:]
    if name == 'Param' and argument < len(given):
        return given[argument]
    if name == 'Named' and not argument[0]['lifetimes']:
        symbol, types = argument[0]['name'], tuple(read_type(t, given) for t in argument[1])
        return RESIDUAL[symbol](types) if symbol in RESIDUAL else ('named', instance(symbol, types) if types else symbol)
    return refuse('the type', term)


def read_step(term):
    name, argument = split(term)
    if name == 'Deref':
        return ('deref', read_type(argument))
    if name in ('Field', 'Variant'):
        return (name.lower(), argument)
    return refuse('the step', term)


def read_place(term):
    return Place(term['local'], tuple(map(read_step, term['steps'])))


def read_operand(term):
    name, argument = split(term)
    if name == 'Copy':
        return ('copy', read_place(argument))
    if name == 'Int' and argument['width'] in (8, 16, 32, 64) and 0 <= argument['value'] < 2 ** argument['width']:
        return ('int', argument['width'], argument['value'])
    if name in ('True', 'False'):
        return ('bool', name == 'True')
    if name == 'Unit':
        return ('unit',)
    return refuse('the operand', term)


def read_operator(term):
    name, argument = split(term)
    if argument is None:
        return (name,)
    return (name, *argument) if isinstance(argument, list) else (name, argument)


def read_value(term):
    name, argument = split(term)
    if name == 'Opd':
        return ('opd', read_operand(argument))
    if name == 'Op1':
        return ('op1', read_operator(argument[0]), read_operand(argument[1]))
    if name == 'Op2':
        return ('op2', read_operator(argument[0]), read_operand(argument[1]), read_operand(argument[2]))
    if name == 'AddrOf':
        return ('addrOf', read_place(argument))
    if name == 'Aggregate':
        return ('aggregate', tuple(map(read_operand, argument)))
    if name == 'Repeat' and 'Lit' in argument[1]:
        return ('repeat', read_operand(argument[0]), argument[1]['Lit'])
    return refuse('the value', term)


def called(symbol, given):
    """The symbol of a function at types."""
    if not given['types'] and not given['dicts']:
        return symbol
    name = '_'.join([symbol, *(str(t['Const']) if 'Const' in t else word(read_type(t)) for t in given['types'])])
    if CALLED.setdefault(name, (symbol, given)) != (symbol, given):
        refuse('two functions of one name', name)
    return name


def read_call(term, operands, place):
    """A call of a function by its name, or of a trait's method at a type."""
    name, argument = split(term)
    if name == 'Method' and 'Impl' in argument[0]:
        impl, index, given = argument
        if impl['Impl'][1] or impl['Impl'][2] or given['types'] or given['dicts'] or impl['Impl'][0] not in METHODS:
            return refuse('the method of', term)
        return ['call', METHODS[impl['Impl'][0]][index], operands, place]
    if name != 'Fn':
        return refuse('the call of', term)
    symbol, given = argument
    if symbol in LIBRARY:
        return ['library', LIBRARY[symbol], operands]
    if symbol in BRANCH:
        return ['branch', symbol, operands[0], place]
    if symbol in FROM_RESIDUAL:
        return ['residual', FROM_RESIDUAL[symbol], [split(one)[1][0] for one in given['dicts']], operands[0], place]
    if symbol.startswith('core::') and (given['types'] or given['dicts']):
        return refuse('the call of', term)
    return ['call', called(symbol, given), operands, place]


def at_types(term, given):
    """The text of a generic function with types in place of its parameters."""
    if isinstance(term, list):
        return [at_types(part, given) for part in term]
    if not isinstance(term, dict):
        return term
    if set(term) == {'Param'}:
        return given['types'][term['Param']]
    if set(term) == {'Given'}:
        return given['dicts'][term['Given']]
    made = {key: at_types(part, given) for key, part in term.items()}
    if set(made) == {'NumOf'} and 'Const' in made['NumOf'][1]:
        return {'Int': {'width': made['NumOf'][0], 'value': made['NumOf'][1]['Const']}}
    if set(made) == {'Array'} and 'Const' in made['Array'][1]:
        return {'Array': [made['Array'][0], {'Lit': made['Array'][1]['Const']}]}
    return made


def read_static(type_term, term):
    type_, (name, argument) = read_type(type_term), split(term)
    if name == 'Ints' and type_ == ('array', ('int', argument['width']), len(argument['values'])):
        return ('static', type_, tuple(argument['values']))
    return refuse('the constant', term)


def read_body(terms):
    """The next statement of a body, which stands in prefix form: a list of statements, without Seq and Skip."""
    term = next(terms)
    name, argument = split(term)
    if name == 'Seq':
        return read_body(terms) + read_body(terms)
    if name == 'Skip':
        return []
    if name == 'Return':
        return [['return']]
    if name in ('Block', 'Loop'):
        return [[name.lower(), read_body(terms)]]
    if name == 'Assign':
        return [['assign', read_place(argument[0]), read_value(argument[1])]]
    if name == 'If':
        return [['if', read_operand(argument), read_body(terms), read_body(terms)]]
    if name == 'Exit':
        return [['exit', argument]]
    if name == 'Call':
        return [read_call(argument[0], tuple(map(read_operand, argument[1])), read_place(argument[2]))]
    if name == 'LendStatic':
        return [['assign', read_place(argument[0]), read_static(*argument[1:])]]
    if name == 'Switch':
        number, keys, has_default = argument
        arms = [(one, read_body(terms)) for one in keys]
        return [['switch', read_operand(number), arms, read_body(terms) if has_default else None]]
    return refuse('the statement', term)


def read_shape(shape, given=()):
    """A declared type: ('fields', types) or ('variants', types of each). A variant whose only field is a unit has none."""
    name, argument = split(shape)
    if name == 'Fields':
        return ('fields', [read_type(t, given) for t in argument])
    if name == 'Variants':
        variants = [[read_type(t, given) for t in fields] for fields in argument]
        return ('variants', [[] if types == [('unit',)] else types for types in variants])
    return refuse('the declared type', shape)


def is_plain(declared):
    """A declared type without parameters but types."""
    return declared['lifetimes'] == 0 and not declared['const_params']


def instances():
    """Each type with parameters at the types that it was met at."""
    found = {}
    while len(found) < len(INSTANCES):
        for symbol, (name, types) in list(INSTANCES.items()):
            found[symbol] = read_shape(GENERIC[name], types) if name in GENERIC else ('unknown',)
    return found


# ---- `?`: `branch` tells whether to go on, a switch asks it, and `from_residual` makes the function's own refusal

BRANCH = {'core::result::ResultTry::branch': (0, 1), 'core::option::OptionTry::branch': (1, 0)}  # the variants to go on with and to leave with
FROM_RESIDUAL = {'core::result::ResultFromResidualErrResidual::from_residual': 1, 'core::option::OptionFromResidualNoValue::from_residual': 0}


def moved(term, local, place, keys):
    """The term with another place in place of a local, whose variants have other numbers there."""
    if isinstance(term, Place) and term.local == local:
        if not term.steps or term.steps[0][0] != 'variant':
            refuse('a part of', term)
        (_, k), *rest = term.steps
        return Place(place.local, place.steps + (('variant', keys[k]), *rest))
    if isinstance(term, (list, tuple)) and not isinstance(term, Place):
        return type(term)(moved(part, local, place, keys) for part in term)
    return term


def asked(body):
    """The body without `branch`: the switch behind it asks the value itself."""
    made = []
    rest = list(body)
    while rest:
        s = rest.pop(0)
        if s[0] == 'branch':
            keys = BRANCH[s[1]]
            if s[2][0] != 'copy' or not rest or rest[0][0] != 'switch' or s[3].steps:
                refuse('a ? of', s)
            _, number, arms, default = rest[0]
            arms = [([keys[k] for k in ks], arm) for ks, arm in arms]
            rest = moved([['switch', number, arms, default], *rest[1:]], s[3].local, s[2][1], keys)
            continue
        if s[0] == 'residual':
            made += residual(s)
            continue
        made.append([asked(part) if is_body(part) else [(ks, asked(arm)) for ks, arm in part] if is_arms(part) else part for part in s])
    return made


def residual(s):
    """The refusal that `?` returns: the variant of its own, with the error as it is."""
    _, k, conversions, operand, place = s
    if any(one != 'core::convert::AnyFrom' for one in conversions):
        refuse('a ? that converts by', conversions)
    return [['assign', place, ('aggregate', (('int', 8, k), operand)[:1 + k])]]


def is_body(part):
    return isinstance(part, list) and all(isinstance(s, list) for s in part)


def is_arms(part):
    return isinstance(part, list) and all(isinstance(arm, tuple) for arm in part)


class Function:
    def __init__(self, symbol, term):
        METHODS.update({impl['name']: impl['methods'] for impl in term['generics']['impls']})
        self.symbol, self.params = symbol, term['params']
        self.types = [read_type(one['ty']) for one in term['locals']]
        self.in_memory = [one['home'] == 'MemorySlot' for one in term['locals']]
        terms = iter(term['body'])
        self.body = asked(read_body(terms))
        if next(terms, None) is not None:
            refuse('a body with a rest', symbol)
        if symbol not in CALLED and (term['generics']['types'] or term['generics']['bounds']):
            refuse('the generic function', symbol)
        plain = [one for one in term['types'] if is_plain(one)]
        self.declared = {one['name']: read_shape(one['shape']) for one in plain if one['type_params'] == 0}
        GENERIC.update({one['name']: one['shape'] for one in plain if one['type_params'] > 0})
        self.note()

    def note(self):
        """Lists what the body has."""
        self.statements = [s for body in bodies(self.body) for s in body]
        self.places = list(places(self.body))


class Functions(dict):
    """Functions by their symbols, each read when it is first asked for: one that nothing reaches may have what no rule knows."""

    def __init__(self):
        super().__init__()
        self.terms = {}

    def __missing__(self, symbol):
        if symbol in CALLED:
            own, given = CALLED[symbol]
            term = self.terms[own]
            self[symbol] = Function(symbol, {**term, 'locals': at_types(term['locals'], given), 'body': at_types(term['body'], given)})
        else:
            self[symbol] = Function(symbol, self.terms[symbol])
        return self[symbol]

    def has(self, symbol):
        return symbol in self.terms or symbol in CALLED and CALLED[symbol][0] in self.terms


class Library:
    """A proved library and all that it depends on, from the folder of the crates, in which rt writes each to CRATE/out/rlib."""

    def __init__(self, folder, name):
        self.name, self.folder = name, pathlib.Path(folder)
        self.functions, self.logic = Functions(), None
        self.crates = []
        self.add(name)

    def add(self, name):
        home = self.folder / name / 'out' / 'rlib' / f'{name}.rlib'
        if name in self.crates or not home.is_dir():  # a library of the toolchain: a function of it that is called is then missing
            return
        lines = [line.split() for line in (home / 'format').read_text().splitlines()]
        logic = next(words[1] for words in lines if words[0] == 'logic')
        if self.logic not in (None, logic):
            refuse('two logics', name)
        self.logic = logic
        self.crates.append(name)
        self.functions.terms.update(json.loads((home / 'toolchain' / 'mir.json').read_text()))
        for words in lines:
            if words[0] == 'dep':
                self.add(words[1])


# ---- looking through terms

def parts(statement):
    """The bodies inside a statement."""
    if statement[0] in ('block', 'loop'):
        return [statement[1]]
    if statement[0] == 'if':
        return statement[2:]
    if statement[0] == 'switch':
        return [body for _, body in statement[2]] + ([statement[3]] if statement[3] is not None else [])
    return []


def bodies(body):
    """A body and every body inside it."""
    yield body
    for statement in body:
        for part in parts(statement):
            yield from bodies(part)


def in_order(body):
    """Every statement of a body, as the text has them."""
    for statement in body:
        yield statement
        for part in parts(statement):
            yield from in_order(part)


def places(term):
    """Every place in a term."""
    if isinstance(term, Place):
        yield term
    elif isinstance(term, (list, tuple)):
        for part in term:
            yield from places(part)


def mentions(terms, local):
    return sum(place.local == local for place in places(terms))


def target(statement):
    """The place that a statement writes."""
    return {'assign': lambda: statement[1], 'call': lambda: statement[3]}.get(statement[0], lambda: None)()


def whole(term):
    """The local that a place or the copy of one is, where it is a whole local."""
    place = term[1] if term[0] == 'copy' else term
    return place.local if isinstance(place, Place) and not place.steps else None


def calls(function):
    return [s[1] for s in function.statements if s[0] == 'call']
