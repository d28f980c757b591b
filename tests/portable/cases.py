"""The translator's cases: tiny Rattle programs (cases/src), proved and compiled by rt, beside the same programs as C.

The sources have the ending .txt, as every file of Rattle in this repository belongs to a crate of crates.txt. For the same reason they are proved in a
folder of the system's for temporary files."""
import functools
import hashlib
import os
import pathlib
import shutil
import subprocess
import sys
import tempfile
import threading

ROOT = pathlib.Path(__file__).resolve().parents[2]
TRANSLATOR = ROOT / 'portable'
HOME = ROOT / 'target' / 'portable' / 'cases'
PROVED = pathlib.Path(tempfile.gettempdir()) / f'tecelume-cases-{os.getuid()}-{hashlib.sha256(bytes(ROOT)).hexdigest()[:12]}'
CRATES = PROVED / 'crates'
ARCHIVE = CRATES / 'cases' / 'out' / 'libcases.a'

sys.path.insert(0, str(TRANSLATOR))
sys.setrecursionlimit(100000)


def prove():
    """Proves the cases as a library, for their MIR, and then makes rt's archive of them, over what was proved. Not again, if nothing changed."""
    stamp, state = PROVED / 'stamp', digest()
    PROVED.mkdir(mode=0o700, exist_ok=True)
    if PROVED.is_symlink() or PROVED.stat().st_uid != os.getuid():
        sys.exit(f'{PROVED} is not a folder of this user')
    if stamp.is_file() and stamp.read_text() == state:
        return
    stamp.unlink(missing_ok=True)
    copy()
    for line in ('cases:', 'cases staticlib:'):
        (PROVED / 'crates.txt').write_text(line + '\n')
        done = subprocess.run(['rt', 'lib'], cwd=CRATES / 'cases', stdout=subprocess.PIPE, stderr=subprocess.STDOUT, text=True, check=False)
        if done.returncode:
            sys.exit(f'rt lib of "{line}" failed:\n{done.stdout[-3000:]}')
    stamp.write_text(state)


def digest():
    """What the proof of the cases rests on: the toolchain and their text."""
    version = subprocess.run(['rt', 'version'], capture_output=True, check=True).stdout
    return hashlib.sha256(version + b''.join(path.read_bytes() for path in texts())).hexdigest()


def texts():
    return sorted((ROOT / 'tests' / 'portable' / 'cases').glob('*/*.txt'))


def copy():
    """The cases as a repository of their own."""
    crate = CRATES / 'cases'
    for part in ('src', 'proofs'):
        shutil.rmtree(crate / part, ignore_errors=True)
    for path in texts():
        to = crate / path.parent.name / path.stem
        if path.parent.name == 'proofs':
            to = to.with_suffix('') / 'Invariants.antt'
        to.parent.mkdir(parents=True, exist_ok=True)
        shutil.copy(path, to)


def translate(translator, out):
    """The cases as C by a translator, which may be a wrong one: None, or what it said."""
    out.mkdir(parents=True, exist_ok=True)
    words = [sys.executable, '-B', translator / 'translate', 'cases', 'cases.h', '--crates', CRATES]
    done = subprocess.run(words, capture_output=True, text=True, check=False)
    (out / 'cases.c').write_text(done.stdout)
    return done.stderr if done.returncode else None


# ---- the driver, which makes each call twice: on rt's code and on the C

DRIVER = '''#include <stdbool.h>
#include <stdint.h>
#include <stdio.h>
#include <stdlib.h>
#include <string.h>
#include "cases.h"
#include "as_c.h"

static uint64_t seed = 1;
static uint64_t any(void)
{
    seed ^= seed << 13;
    seed ^= seed >> 7;
    seed ^= seed << 17;
    return seed;
}
/* mostly numbers at an edge: small, around a power of two, or anything */
static uint64_t number(void)
{
    uint64_t kind = any() % 4;
    uint64_t power = (uint64_t)1 << any() % 64;
    return kind == 0 ? any() % 12 : kind == 1 ? power + any() % 3 - 1 : kind == 2 ? any() % 300 : any();
}
struct bytes { uint8_t *ours, *theirs; size_t len; };
static struct bytes lent(void)
{
    struct bytes b = { NULL, NULL, any() % 4 == 0 ? 0 : any() % 12 };
    if (b.len == 0 && any() % 2 == 0)
        return b;
    b.ours = malloc(b.len + 1);
    b.theirs = malloc(b.len + 1);
    for (size_t i = 0; i <= b.len; i++)
        b.ours[i] = b.theirs[i] = (uint8_t)(any() % 3 == 0 ? 255 - any() % 2 : any() % 12);
    return b;
}
static bool alike(struct bytes b)
{
    bool same = b.ours == NULL || memcmp(b.ours, b.theirs, b.len + 1) == 0;
    free(b.ours);
    free(b.theirs);
    return same;
}
static void check(const char *name, bool same)
{
    if (!same) {
        printf("%s differs\\n", name);
        exit(1);
    }
}
'''


@functools.lru_cache(None)
def signatures():
    """Each entry of the cases: name, result type, parameter types."""
    from mir import Library
    from sources import exports
    library = Library(CRATES, 'cases')
    found = [(name, library.functions[f'cases::{name}']) for name in exports(CRATES, 'cases', 'cases')]
    return [(name, f.types[0], f.types[1:f.params + 1]) for name, f in found]


def c_type(t):
    return {'int': lambda: f'uint{t[1]}_t', 'bool': lambda: 'bool', 'unit': lambda: 'void'}[t[0]]()


def declaration(name, result, types):
    words = [('const uint8_t *, size_t' if t[1] == 'imm' else 'uint8_t *, size_t') if t[0] == 'slice' else c_type(t) for t in types]
    return f'{c_type(result)} {name}({", ".join(words) or "void"});'


def turn(name, result, types):
    """The lines that make one call on both sides and compare."""
    lines, ours, theirs, same = [], [], [], []
    for i, t in enumerate(types):
        if t[0] == 'slice':
            lines.append(f'struct bytes a{i} = lent();')
            ours.append(f'a{i}.ours, a{i}.len')
            theirs.append(f'a{i}.theirs, a{i}.len')
            same.append(f'alike(a{i})')
        else:
            lines.append(f'{c_type(t)} a{i} = ({c_type(t)})number();')
            ours.append(f'a{i}')
            theirs.append(f'a{i}')
    if result == ('unit',):
        lines += [f'{name}({", ".join(ours)});', f'c_{name}({", ".join(theirs)});']
    else:
        lines.append(f'bool same = {name}({", ".join(ours)}) == c_{name}({", ".join(theirs)});')
        same.append('same')
    lines += [f'bool same_{i} = {one};' for i, one in enumerate(same)]
    return lines + [f'check("{name}", {" && ".join(f"same_{i}" for i in range(len(same)))});']


def write_driver(out):
    entries = signatures()
    includes = '#include <stdbool.h>\n#include <stddef.h>\n#include <stdint.h>\n'
    both = '#ifdef __cplusplus\nextern "C" {\n#endif\n', '\n#ifdef __cplusplus\n}\n#endif\n'
    (out / 'cases.h').write_text(includes + both[0] + '\n'.join(declaration(*e) for e in entries) + both[1])
    (out / 'as_c.h').write_text('\n'.join(declaration('c_' + e[0], *e[1:]) for e in entries) + '\n')
    (out / 'as_c.c').write_text('\n'.join(f'#define {e[0]} c_{e[0]}' for e in entries) + '\n#include "cases.c"\n')
    turns = '\n'.join('    for (int i = 0; i < 20000; i++) {\n        ' + '\n        '.join(turn(*e)) + '\n    }' for e in entries)
    (out / 'driver.c').write_text(f'{DRIVER}int main(void)\n{{\n{turns}\n    return 0;\n}}\n')


STRICT = ['-Wall', '-Wextra', '-Wpedantic', '-Wconversion', '-Wshadow', '-Werror']
SANITIZE = ['-g', '-O1', '-fsanitize=address,undefined', '-fno-sanitize-recover=all']
LOCK = threading.Lock()


def compile_and_run(out, compiler='gcc -std=c99', warnings=True):
    """None if the C of the cases does what rt's code does, or what went wrong."""
    write_driver(out)
    words = compiler.split()
    with LOCK:
        main = driver('clang' if 'clang' in compiler else 'gcc')
    for line in ([*words, *(STRICT if warnings else ['-w']), *SANITIZE, '-c', 'as_c.c', '-o', 'as_c.o'],
                 [words[0], *SANITIZE, main, 'as_c.o', ARCHIVE, '-o', 'driver'], ['./driver']):
        done = subprocess.run(line, cwd=out, capture_output=True, text=True, check=False)
        if done.returncode:
            return (done.stdout + done.stderr).strip() or f'status {done.returncode}'
    return None


@functools.lru_cache(None)
def driver(compiler):
    """The driver, which is the same for every translator."""
    out = HOME / f'driver_{compiler}'
    out.mkdir(parents=True, exist_ok=True)
    write_driver(out)
    subprocess.run([compiler, '-std=c99', *SANITIZE, '-c', 'driver.c', '-o', 'driver.o'], cwd=out, check=True)
    return out / 'driver.o'
