"""The whole C file: which functions, in which order, and what stands at its top."""
import collections
import json
import re

import returns
from apart import APART, apart
from body import Body
from copies import LARGE, Storage
from idioms import FOUR_BYTES, constants, copy, load, store, table
from layout import comment
from mir import CALLED, INSTANCES, calls, instances, refuse
from shapes import Shapes, c_name

MAKE = '''/* A value of a struct type: C's compound literal, C++'s braces. */
#ifdef __cplusplus
#define MAKE(type) type
#else
#define MAKE(type) (type)
#endif

/* Numbers below 32 bits are cut by hand where C computes with int: that asks for an int of at most 32 bits. */
typedef char int_has_at_most_32_bits[sizeof(int) <= 4 ? 1 : -1];'''

# the library's own enums
VARIANTS = {'core::option::Option': ['None', 'Some'], 'core::result::Result': ['Ok', 'Err']}


def quoted(name, numbers):
    """A short text of characters, for the comment above its numbers, where its name does not say it."""
    is_text = all(n == 10 or 32 <= n < 127 for n in numbers) and len(numbers) <= 40
    text = json.dumps(''.join(map(chr, numbers))) if is_text else ''
    return text if '*/' not in text and not name.startswith('letters_') else ''


class Program:
    def __init__(self, library, sources, names):
        """names are those of the library's functions that C calls."""
        self.functions, self.sources = library.functions, sources
        self.entries = [self.exported(library.name, name) for name in names]
        if not self.entries:
            refuse('a library without a function that C may call,', library.name)
        self.order = self.reached()
        declared = {}
        for function in self.order:
            for name, what in function.declared.items():
                if declared.setdefault(name, what) != what:
                    refuse('two types of one name', name)
        declared.update(instances())
        for symbol, (name, _) in INSTANCES.items():
            sources.names[symbol] = VARIANTS.get(name) or sources.names.get(name, [])
        for symbol, (own, _) in CALLED.items():
            sources.like(symbol, own)
        self.shapes = Shapes(declared, sources)
        in_c = [function for function in self.order if not load(function, self.shapes, self.functions)]  # what that calls is not called in C
        self.sites = collections.Counter(symbol for function in in_c for symbol in calls(function))  # how many calls of each there are
        self.size, self.holds_pointer = self.shapes.size, self.shapes.holds_pointer
        self.storage, self.helpers = {}, set()
        self.tables = {}  # symbol of a function that gives an array of constants: the array's C name
        self.statics = {}  # an array of constants that functions lend, as (type, numbers): its C name

    def exported(self, crate, name):
        """The symbol of an exported function, wherever in its crate it stands."""
        found = [symbol for symbol in self.functions.terms if symbol.split('::')[0] == crate and symbol.split('::')[-1] == name]
        return found[0] if len(found) == 1 else refuse('an export that is not one function,', name)

    def reached(self):
        """The functions that the entries reach, callees first."""
        order, open_ = [], set()

        def visit(symbol):
            if symbol in order:
                return
            if not self.functions.has(symbol):
                refuse('a call of a function that is not in these libraries', symbol)
            if symbol in open_ or symbol in self.entries and open_:
                refuse('a recursive or an exported function that is called', symbol)
            open_.add(symbol)
            for callee in calls(self.functions[symbol]):
                visit(callee)
            order.append(symbol)
            open_.remove(symbol)

        for entry in self.entries:
            visit(entry)
        names = [c_name(symbol) for symbol in order]
        if len(set(names)) != len(names):
            refuse('two functions of one C name', sorted(names))
        return [self.functions[symbol] for symbol in order]

    def text(self, header, head):
        """The file. header is the C header that declares the entries, head the comment at its top."""
        bodies, texts = {}, {}
        for function in self.order:
            if self.size(function.types[0]) <= LARGE:  # of larger results copies.py wants one place that returns
                returns.early(function)
            self.storage[function.symbol] = Storage(self, function)
            texts[function.symbol] = self.idiom(function)
            if not texts[function.symbol]:
                bodies[function.symbol] = Body(self, function)
                bodies[function.symbol].translate()
        kept = apart(self, bodies)
        texts.update({symbol: body.text(symbol in kept) for symbol, body in bodies.items()})
        top = f'#include "{header}"\n\n' + '\n'.join(f'#include <{name}.h>' for name in ('stdbool', 'stddef', 'stdint', 'string'))
        statics = [comment(quoted(name, numbers)) + constants(type_, numbers, self.shapes, name) for (type_, numbers), name in self.statics.items()]
        makers = [text for name, text in self.shapes.makers.items() if any(name + '(' in body for body in texts.values())]
        types = list(self.shapes.definitions.values()) + makers
        code = [comment(self.sources.comments.get(symbol)) + text for symbol, text in texts.items() if symbol in self.entries or self.sites[symbol]]
        return '\n\n'.join([head, top, MAKE, APART] + types + statics + sorted(self.helpers) + code) + '\n'

    def static(self, type_, numbers):
        """The C name of an array of constants: a word is named for its letters."""
        if (type_, numbers) not in self.statics:
            word = ''.join(map(chr, numbers)) if type_[1] == ('int', 8) else ''
            self.statics[type_, numbers] = f'letters_{word}' if re.fullmatch('[A-Za-z0-9_]{1,16}', word) else f'lent_{len(self.statics) + 1}'
        return self.statics[type_, numbers]

    def idiom(self, function):
        """The text of a function that C says in a form of its own."""
        text = table(function, self.shapes)
        if text:
            self.tables[function.symbol] = c_name(function.symbol)
        number = load(function, self.shapes, self.functions) or store(function, self.shapes)
        self.helpers |= {FOUR_BYTES} if number else set()
        return text or copy(function, self.shapes) or number
