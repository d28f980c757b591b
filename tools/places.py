#!/usr/bin/env python3
"""places.py [-v]: counts, for docs/DESIGN-PASS.md, the places in src/ (and, for proofs, in proofs/) that may have a newer form. -v lists them.

It finds candidates by their text. Which of them are places, and what became of each, the page says."""
import collections
import pathlib
import re
import sys

CRATES = pathlib.Path(__file__).resolve().parents[1] / 'crates'
KEYWORDS = set('fn let mut if else while for in return match loop break continue pub use mod struct enum impl self as true false const ref'.split())


def sources():
    for path in sorted(CRATES.glob('*/src/**/*.rt')):
        yield path, path.read_text().split('\n')


def lines(pattern):
    """Lines of code, without comments, in which the pattern is."""
    found = re.compile(pattern)
    for path, text in sources():
        for n, line in enumerate(text, 1):
            if found.search(line.split('//')[0]):
                yield f'{path.relative_to(CRATES)}:{n}: {line.strip()}'


def items(word):
    """Each item that begins with the word, up to its closing brace at the same depth, as (where, text)."""
    for path, text in sources():
        for n, line in enumerate(text):
            head = re.match(rf'(\s*)(pub )?{word} (\w+)', line)
            if head:
                end = next((k for k in range(n, len(text)) if text[k].startswith(head[1] + '}')), n)
                yield f'{path.relative_to(CRATES)}:{n + 1}: {head[3]}', '\n'.join(text[n:end + 1])


def value_enums():
    """Enums with at most one variant for success beside others without or with a number: the shape of Option or Result."""
    for where, text in items('enum'):
        variants = re.findall(r'^\s+(\w+)(\(.*\))?,', re.sub(r'//.*', '', text), re.M)
        names = [name for name, _ in variants]
        if len(names) == 2 and sum(bool(fields) for _, fields in variants) <= 2 or {'Done', 'Pass', 'Wrote', 'Got'} & set(names):
            yield f'{where} {{{", ".join(name + fields for name, fields in variants)}}}'


def flagged_structs():
    for where, text in items('struct'):
        if re.search(r'^\s+(pub )?(ok|more|told|failed|found|left|bad|is_\w+|has_\w+): bool', text, re.M):
            yield where


def twins():
    """Functions whose text is the same but for their names, numbers and types."""
    groups = collections.defaultdict(list)
    for where, text in items('fn'):
        body = re.sub(r'//.*', '', text[text.index('{\n') + 2:] if '{\n' in text else '')
        tokens = re.findall(r'\w+|[^\w\s]', body)
        if len(tokens) < 24:
            continue
        groups[' '.join(t if t in KEYWORDS or not t[0].isalnum() and t[0] != '_' else '_' for t in tokens)].append(where)
    return [' = '.join(group) for group in groups.values() if len(group) > 1]


def repeated_facts():
    """Facts that stand in the contracts of three functions or more of one crate, whatever their values are called."""
    facts = collections.defaultdict(set)
    for where, text in items('fn'):
        for clause in re.findall(r'^\s*(?:requires|ensures)(?: \w+)? \{ (.*) \}$', text, re.M):
            for fact in re.split(r' × ', clause):
                facts[where.split('/')[0], fact.strip('() ')].add(where)
    return [f'{crate}: {len(wheres)} functions: {fact}' for (crate, fact), wheres in sorted(facts.items()) if len(wheres) >= 3 and len(fact) > 8]


def simple_answers():
    for path in sorted(CRATES.glob('*/proofs/**/Answers.antt')):
        for name in re.findall(r'^(\S+) c =\s+(?:omega arith|refl|tt)\s*$', path.read_text(), re.M):
            yield f'{path.relative_to(CRATES)}: {name}'


COUNTS = [
    ('1 own enums of the shape of Option or Result', value_enums),
    ('1 structs with a flag beside a value', flagged_structs),
    ('1 numbers for refusals', lambda: lines(r'(Refused|Refuses|Faulty|Off)\(\d|(Refused|Refuses|Off|Fails)\(u\d|=> \d+ as u')),
    ('2 twins', twins),
    ('3 loops by hand', lambda: lines(r'^\s*(\'\w+: )?(while|loop)\b')),
    ('4 equality, order, copying, conversion by hand',
     lambda: lines(r'\bfn (is_same|is_less|is_unsaid|same\w*|equal\w*|less\w*|cop(y|ied)\w*|from|number|kind|least|min\w*|max\w*|before)\(')),
    ('5 facts in the contracts of three functions or more', repeated_facts),
    ('6 a buffer with a length or a place beside it', lambda: lines(r'\bfn .*\w+: &(mut )?\[u8\], (at|from|end|i|p): usize, (n|to|len|count|k): usize|^\s+(pub )?(at|from): usize,$')),
    ('7 a switch on a number that says what to run', lambda: lines(r'^\s*(if|} else if) \w+ == \w+ \{|^\s*\d+ => \w+.*\(')),
    ('8 answers that are one tactic', simple_answers),
]


def main():
    for what, find in COUNTS:
        found = list(find())
        print(f'{len(found):5}  {what}')
        if '-v' in sys.argv[1:]:
            print(*(f'         {one}' for one in found), sep='\n')


if __name__ == '__main__':
    main()
