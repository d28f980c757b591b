"""Which functions a C compiler is asked to keep apart. gcc and clang put a function that is called once into its caller, and what it has on the
stack then lies there during every other call of the caller. This is for the stack alone: the C means the same without."""
from mir import calls

APART = '''/* A function that gcc and clang are not to put into its caller, whose stack would hold its arrays during every other call as well. */
#ifdef __GNUC__
#define APART __attribute__((noinline))
#else
#define APART
#endif'''


def through(program, symbols):
    """The functions, and those that one of them only hands its arguments on to, lent on where they are lent."""
    for symbol in symbols:
        yield symbol
        *before, last, end = [['']] + program.functions[symbol].body
        if last[0] == 'call' and end == ['return'] and all(s[0] in ('', 'assign') for s in before):
            yield from through(program, [last[1]])


def apart(program, bodies):
    """The functions with large locals, unless a caller has such itself: they may share its stack. And where one of them is called from what
    becomes one function with an entry, the loops in there: their variables would lie on the stack besides."""
    callees = {symbol: set(calls(body.function)) for symbol, body in bodies.items()}
    roomy = {symbol for symbol, body in bodies.items() if body.is_roomy()}
    found = roomy - {callee for symbol in roomy for callee in through(program, callees[symbol])}

    def part_of(symbol):
        """The function and those that compilers put into it."""
        inner = [callee for callee in callees[symbol] if callee in bodies and program.sites[callee] == 1 and callee not in found]
        return {symbol}.union(*map(part_of, inner))

    parts = [part_of(entry) for entry in program.entries]
    crowded = set().union(*(part for part in parts if any(callees[symbol] & found for symbol in part))) - set(program.entries)
    return found | {symbol for symbol in crowded if any(s[0] == 'loop' for s in bodies[symbol].function.statements)}
