"""What the sources say and MIR does not: names of parameters, locals, fields and variants, and the comment above each item. All of it is
for the reader of the C; it does not change what the C does."""
import pathlib
import re

from mir import refuse

ITEM = re.compile(r'^(?P<indent> *)(?:pub )?(?:extern "C" )?(?:(?P<fn>fn)|struct|enum|impl) (?P<name>\w+)(?:<(?P<given>[^>]*)>)?'
                  r'(?: for (?P<type>\w+|\([^()]*\)))?', re.M)
# comments, letters and strings
OPAQUE = re.compile(r'''//.*|b?'(?:\\.|[^'\\])'|b?"(?:\\.|[^"\\])*"''')
# What binds names in a body: a `let`, a `for` and over what, a pattern, which may hold another one, and a `?`.
PART = r'(?:[^()]|\([^()]*\))*'
BINDER = re.compile(rf'\blet (?:mut )?(?P<let>[a-z_]\w*)\s*[:=;]|\bfor (?P<loop>\w+|\({PART}\)) in (?=(?P<over>[^{{]*)\{{)'
                    rf'|(?:\b[A-Z]\w*|\blet )\((?P<arm>{PART})\)\s*(?:=>|=(?!=)|\|)|(?P<asked>\?)')
EXPORT = re.compile(r'#\[unsafe\(no_mangle\)\]\npub extern "C" fn (\w+)\(([^()]*)\)[^{}]*(?:(?:requires|ensures)[^\n]*\n)*\{\n(.*?)^\}', re.M | re.S)


class Sources:
    def __init__(self, folder):
        self.names = {}     # symbol of a function, struct or enum: its parameters, fields or variants
        self.locals = {}    # symbol of a function: the names that its body binds, in their order
        self.comments = {}  # symbol: the comment above it
        for path in sorted(pathlib.Path(folder).glob('*/src/**/*.rt')):
            inner = path.relative_to(folder).with_suffix('').parts
            self.read('::'.join(inner[:1] + tuple(p for p in inner[2:] if p not in ('lib', 'main'))), path.read_text())

    def read(self, module, text):
        owner = None
        for item in ITEM.finditer(text):
            end = re.compile(rf'^{item["indent"]}\}}', re.M).search(text, item.end())
            inside = OPAQUE.sub('', text[item.end():end.start() if end else len(text)])
            if ' impl ' in f' {item[0]}':
                owner = implemented(item)
                continue
            symbol = '::'.join(filter(None, (module, owner if item['indent'] else None, item['name'])))
            self.comments[symbol] = comment_above(text[:item.start()])
            if item['fn']:
                self.read_function(symbol, inside)
            else:
                self.names[symbol] = re.findall(r'^\s+(?:pub )?(\w+)\s*(?:[:,(]|$)', inside, re.M)

    def like(self, symbol, own):
        """A generic function at types is named as it is."""
        for table in (self.names, self.locals, self.comments):
            if own in table:
                table[symbol] = table[own]

    def read_function(self, symbol, text):
        head, _, body = text.partition(')')
        self.names[symbol] = re.findall(r'(?:^|[(,])\s*(?:mut )?&?(?:mut )?(self|\w+(?=\s*:))', head)
        self.locals[symbol] = [name for found in BINDER.finditer(body) for name in bound(found)]


def implemented(item):
    """The type, or the trait's methods at a type: its words, the trait, and the numbers that it is given. A tuple goes by its length and its parts."""
    if not item['type']:
        return item['name']
    words, given = re.findall(r'\w+', item['type']), re.findall(r'\b\d+\b', item['given'] or '')
    return ''.join([f'Tuple{len(words)}'] * (item['type'][0] == '(') + words + [item['name']] + given)


def bound(found):
    """The names that a `let`, a `for` or a pattern binds, with None for what has a place in MIR and no name: what a `?` hands on and what it goes on
    with, the index of a loop over a slice, and before it the slice where that is no name."""
    if found['asked']:
        return [None, None]
    text = (found['let'] or found['loop'] or found['arm']).replace('mut ', '')
    names = [name for name in re.findall(r"\b[a-z_]\w*\b(?!\s*::|')", text) if name != '_']
    if not found['loop'] or '..' in re.sub(r'\[[^]]*\]', '', found['over']):
        return names
    return [None] * (found['over'].startswith('&') + (len(names) < 2)) + names


def comment_above(text):
    lines = []
    for line in reversed(text.splitlines()):
        if line.strip().startswith('//'):
            lines.append(line.strip()[2:].strip())
        elif not line.strip().startswith('#['):
            break
    return ' '.join(reversed(lines)).removeprefix('Internal. ')


def exports(folder, crate, library):
    """The functions that a crate gives to C. Where it is a crate beside the library, each must only call the library's function of its name, with
    its own parameters."""
    names = []
    for path in sorted((pathlib.Path(folder) / crate / 'src').glob('**/*.rt')):
        text = path.read_text()
        found = EXPORT.findall(text)
        if len(found) != text.count('no_mangle'):
            refuse('a function for C of another form in', path.name)
        for name, params, body in found:
            names.append(name)
            module = [library] + [path.stem] * (path.stem != 'lib')
            words = re.findall(r'(\w+)\s*:', params)
            call = '::'.join(module + [name]) + '(' + ','.join(words) + ')'
            if crate != library and ''.join(body.split()).replace(',)', ')') != call:
                refuse('a function for C that is not', call)
    return names
