"""The MIR of a crate's functions, as `rt mir` prints it: the locals with their types, and the statements in order."""
import functools
import re
import subprocess


def parsed(text):
    """The S-expression of a text, as nested lists; the machine's own lists become lists that begin with '['."""
    stack = [[]]
    for word in re.findall(r'"[^"]*"|[()]|[^\s()]+', text):
        if word == '(':
            stack.append([])
        elif word == ')':
            inner = stack.pop()
            stack[-1].append(inner)
        else:
            stack[-1].append(word.strip('"'))
    return stack[0]


def listed(cells):
    """(lcons a (lcons b lnil)) as [a, b]."""
    found = []
    while cells not in ('lnil', 'tnil'):
        found.append(cells[1])
        cells = cells[2]
    return found


class Routine:
    """A function: the types of its locals, how many of them are parameters, and its statements."""

    def __init__(self, item):
        self.many_params = int(item[3])
        self.types = [local[1] for local in listed(item[4])]
        self.body = in_order(item[5])


def in_order(body):
    found = []
    while body[0] == 'seq':
        found.append(body[1])
        body = body[2]
    return found + [body]


@functools.cache
def routines(crate):
    """The functions of a crate and of those that it uses, by their paths."""
    printed = subprocess.run(['rt', 'mir', crate], stdout=subprocess.PIPE, stderr=subprocess.DEVNULL, text=True, check=True).stdout
    return {item[1]: Routine(item[2]) for item in listed(parsed(printed)[1])}


def place_of(term):
    """(place i path), as the local and the path's steps, a field's number or 'deref'."""
    return int(term[1]), ['deref' if step[0] == 'deref' else int(step[1]) for step in listed(term[2])]


def operand(term):
    """A local that is copied, or a number."""
    if term[0] == 'int':
        return Literal(int(term[1]), term[2])
    local, path = place_of(term[1])
    return local if not path else None


class Literal:
    def __init__(self, width, number):
        self.width, self.number = width, number


class Statement:
    """One thing that a function does, which may take several statements of its MIR. `size` says how many."""

    def __init__(self, what, size, **parts):
        self.what, self.size = what, size
        self.__dict__.update(parts)


def statements(body):
    """What a body does, in order."""
    found, at = [], 0
    while at < len(body):
        found.append(statement(body[at:]))
        at += found[-1].size
    return found


def statement(body):
    first = body[0]
    if first == 'return' or first == 'skip':
        return Statement(first, 1)
    if first[0] == 'block':
        return Statement('loop', 1, turn=in_order(first[1][1]))
    if first[0] == 'if':
        return Statement('branch', 1, test=operand(first[1]), taken=in_order(first[2]))
    if first[0] == 'call':
        return called(body)
    local, path = place_of(first[1])
    rvalue = first[2]
    if path:
        return Statement('store', 1, base=local, fields=[x for x in path if x != 'deref'], source=operand(rvalue[1]), index=None)
    if rvalue[0] == 'addrOf' and place_of(rvalue[1])[1] in ([], ['deref'], [0, 'deref']):
        return called(body)
    if rvalue[0] == 'op2':
        return computed(local, rvalue, body)
    if rvalue[0] == 'rvOpd' and rvalue[1][0] == 'copy':
        base, steps = place_of(rvalue[1][1])
        if steps:
            return Statement('read', 1, base=base, fields=[x for x in steps if x != 'deref'], dest=local, index=None)
        return Statement('copy', 1, source=base, dest=local)
    if rvalue[0] == 'rvOpd':
        return Statement('copy', 1, source=operand(rvalue[1]), dest=local)
    raise SystemExit(f'no walk over {first}')


def called(body):
    """A call, with what is lent to it before: `lent` is the struct, as the local that it stands in or behind, and the local that refers to it; `slices` are the `&mut [u8]`s."""
    at, lent, slices = 0, None, []
    while body[at][0] == 'assign':
        to, (base, steps) = place_of(body[at][1])[0], place_of(body[at][2][1])
        if steps == [0, 'deref']:
            slices.append((base, to, place_of(body[at + 1][1])[0]))
            at += 1
        else:
            lent = (base, to)
        at += 1
    term = body[at]
    return Statement('call', at + 1, path=term[1][1][1], args=[operand(x) for x in listed(term[2])], dest=place_of(term[3])[0], lent=lent, slices=slices)


def computed(local, rvalue, body):
    """A sum, a test, or where an element lies: its number of bytes, the array's beginning, both together, and the read or the store."""
    kind = rvalue[1][0]
    if kind == 'add':
        return Statement('count', 1, dest=local)
    if kind == 'lt':
        return Statement('test', 1, dest=local, left=operand(rvalue[2]), right=operand(rvalue[3]))
    array, base = place_of(body[1][1])[0], place_of(body[1][2][1])
    item, last = place_of(body[2][1])[0], body[3]
    spot = dict(index=operand(rvalue[2]), temps=(local, array, item), base=base[0], fields=[x for x in base[1] if x != 'deref'])
    if last[2][0] == 'op2':
        within = computed(place_of(last[1])[0], last[2], body[3:])
        if within.what != 'read':
            raise SystemExit(f'no walk over {last}: an element within an element is only read')
        within.size, within.first = within.size + 3, Statement('read', 3, inner=[], **spot)
        return within
    to, path = place_of(last[1])
    if path:
        return Statement('store', 4, source=operand(last[2][1]), inner=path[1:], **spot)
    return Statement('read', 4, dest=to, inner=place_of(last[2][1][1])[1][1:], **spot)
