"""A value that every arm of a branch sets only to be returned behind it is returned in each arm."""
from mir import Place, bodies, parts, target, whole

RESULT = Place(0, ())


def early(function):
    """Rewrites the function's body. Behind the return nobody can ask for the local that held the value."""
    for body in list(bodies(function.body)):
        while len(body) > 2 and body[-1] == ['return'] and body[-3][0] in ('if', 'switch'):
            value = returned(body[-2])
            found = leaves(body[-3], value) if value is not None else None
            if found is None:
                break
            for arm in found:
                arm[-1] = move(arm[-1])
                arm.append(['return'])
            del body[-2:]
    function.note()


def returned(statement):
    """The local that a statement makes the result."""
    is_copy = statement[0] == 'assign' and statement[1] == RESULT and statement[2][0] == 'opd' and statement[2][1][0] == 'copy'
    return whole(statement[2][1]) if is_copy else None


def leaves(branch, value):
    """The bodies inside a branch that end by setting the value. None if one goes on behind the branch without."""
    found = []
    for arm in parts(branch):
        last = arm[-1] if arm else ['']
        inner = leaves(last, value) if last[0] in ('if', 'switch') else None
        if target(last) and whole(target(last)) == value:
            found.append(arm)
        elif inner is not None:
            found += inner
        elif last[0] not in ('return', 'exit'):
            return None
    return found


def move(statement):
    """The statement, with the result for its target."""
    return ['assign', RESULT, statement[2]] if statement[0] == 'assign' else ['call', statement[1], statement[2], RESULT]


def ends(body):
    """Nothing behind the body is reached from it."""
    last = body[-1] if body else ['']
    return last[0] in ('return', 'exit') or last[0] in ('if', 'switch') and all(map(ends, parts(last)))
