"""The lines of one function: where its locals are declared, and how long lines are folded."""
import re
import textwrap

WIDTH = 120


class Lines:
    def __init__(self):
        self.lines, self.depth = [], 1

    # ---- writing

    def put(self, text):
        self.lines.append((self.depth, text))

    def open(self, text):
        self.put(text)
        self.deeper()

    def deeper(self):
        self.depth += 1

    def close(self, text):
        self.depth -= 1
        self.put(text)

    def label(self, text):
        self.lines.append((self.depth - 1, text))

    def in_new_loop(self):
        return bool(self.lines) and self.lines[-1] == (self.depth - 1, 'for (;;) {')

    def loop_while(self, condition):
        """The loop that was just opened goes on while the condition holds."""
        self.lines[-1] = (self.depth - 1, f'while ({condition}) {{')

    def has(self, text):
        return any(line == text for _, line in self.lines)

    # ---- the whole

    def text(self, declarations, opening):
        """The body. Each local is declared where it is first set, if that comes before every use, or else at the top."""
        if self.lines and self.lines[-1] == (1, 'return;'):
            self.lines.pop()
        scopes = self.scopes()
        top = []
        for name, declaration in declarations.items():
            at = self.first_set(name, scopes)
            if at is None:
                top.append(f'    {declaration};')
            else:
                depth, line = self.lines[at]
                self.lines[at] = (depth, declaration + line.removeprefix(name))
        top += [fold(f'    {line}') for line in opening]
        body = [fold('    ' * depth + line) for depth, line in self.lines]
        return '\n'.join(['{'] + top + ([''] if top and body else []) + body + ['}'])

    def scopes(self):
        """For each line the numbers of the lines that open the blocks around it."""
        found, around = [], ()
        for n, (_, line) in enumerate(self.lines):
            if line.startswith('}'):
                around = around[:-1]
            found.append(around)
            if line.endswith('{'):
                around += (n,)
        return found

    def first_set(self, name, scopes):
        """The line that sets a local in the innermost block that has every mention of it, before any other mention."""
        word = re.compile(rf'(?<![.>\w]){name}\b')
        at = [n for n, (_, line) in enumerate(self.lines) if word.search(line)]
        around = scopes[at[0]]
        if any(scopes[n][:len(around)] != around for n in at) or (around and self.lines[around[-1]][1].startswith('switch')):
            return None
        line = self.lines[at[0]][1]
        return at[0] if line.startswith(f'{name} = ') and not word.search(line[len(name):]) else None


def comment(text):
    """A comment above what it is of; nothing where there is no text."""
    return textwrap.fill(text, WIDTH, initial_indent='/* ', subsequent_indent=' * ') + ' */\n' if text else ''


def fold_at(row, indent):
    """Where a row that is too long is folded, behind a comma or before an operator; 0 if nowhere."""
    cuts = [m.end() if m[0] == ', ' else m.start() + 1 for m in re.finditer(r', | [-+*/%&|^] ', row)]
    return max((cut for cut in cuts if indent < cut <= WIDTH < len(row)), default=0)


def fold(line):
    """A line in rows that are not too long, where it can be folded."""
    indent = ' ' * (len(line) - len(line.lstrip()) + 4)
    rows = [line]
    while at := fold_at(rows[-1], len(indent)):
        rows[-1:] = [rows[-1][:at].rstrip(), indent + rows[-1][at:].lstrip()]
    return '\n'.join(rows)
