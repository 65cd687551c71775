"""What a walk holds, in order, and the lines that it says: each step is said, and done here too, so no place is counted by hand."""
import re


def row(items):
    return ''.join(f'{x} ∷ ' for x in items) + '[]'


def nest(items):
    """(x, (y, tt))"""
    return '(' + ', ('.join(items) + ', tt' + ')' * len(items) if items else 'tt'


def product(types):
    return ' × ('.join(list(types) + ['Unit {0}']) + ')' * len(types)


def closed(lines):
    """The lines of a proof, with the parentheses that its steps opened."""
    code = '\n'.join(line for line in lines if not line.strip().startswith('--'))
    return lines[:-1] + [lines[-1] + ')' * (code.count('(') - code.count(')'))]


def one_line(lines, width=230):
    """Short lines put together."""
    found = []
    for line in lines:
        if found and not line.startswith('--') and not found[-1].startswith('--') and len(found[-1]) + len(line) < width:
            found[-1] += ' ' + line
        else:
            found.append(line)
    return found


class Value:
    """What stands in a local: the term, its kind, and the proof that its machine value is the term's. A pointer has a machine value alone."""

    def __init__(self, term, kind, fact, machine=None):
        self.term, self.kind, self.fact = term, kind, fact
        self.machine = machine or kind.val(term)

    def typed(self):
        return f'({self.kind.lawful} .typed {self.term} _ {self.fact} .0)'


def pointer(machine):
    return Value(None, None, None, machine)


class Held:
    """The names of what is held, in order, and the lines said so far."""

    def __init__(self, names=()):
        self.names, self.lines = list(names), []

    def say(self, line):
        self.lines.append(line)

    def at(self, name):
        return self.names.index(name)

    def move(self, *names):
        """These stand first, in this order."""
        places = [self.at(name) for name in names]
        if places != list(range(len(places))):
            self.say(f'move ! ({row(places)}) $')
            self.names = list(names) + [x for x in self.names if x not in names]

    def keep(self, *names):
        self.say(f'keep ! ({row(self.at(name) for name in names)}) $')
        self.names = list(names)

    def drop(self, name):
        self.move(name)
        self.say('drop ! $')
        self.names.pop(0)

    def split(self, name, *parts, how='split'):
        self.move(name)
        self.say(f'{how} ! $')
        self.names[:1] = parts

    def join(self, one, other, name, how='join'):
        self.move(one, other)
        self.say(f'{how} ! $')
        self.names[:2] = [name]

    def replace(self, many, *names):
        """The first that are held become these, by a step that is said elsewhere."""
        self.names[:many] = names

    def rewrite(self, name, how, known):
        self.say(f'rewrite ! {self.at(name)} {how} {known} refl $')


def words_of(text):
    return set(re.split(r'[\s(){};,]+', re.sub(r'(?m)^\s*--.*', '', text)))
