"""What a walk names: the types, functions and definitions that it takes from elsewhere, the values that it defines, and the laws that it asks for."""
import re
from lent.calls import Callee
from lent.kinds import Slice, Struct
from lent.sources import laws


def asks_sound(law):
    """Whether a law asks that the state is one of its type."""
    return bool(re.search(r'\bIs\b|\bSound\b', law[1]))


def asks_typed(law):
    """The structs of which a law asks that what a call told is one of its type, by their names."""
    return re.findall(r'\bTyped(\w+)\b', law[1])


class Naming:
    """The part of a walk that speaks of names."""

    # ---- what is taken from where

    def note(self, kind):
        if isinstance(kind, Struct):
            self.structs.setdefault(kind.path, kind)

    def callee(self, path):
        if path not in self.callees:
            callee = self.callees[path] = Callee(path, self.crate)
            for kind in [callee.result] + callee.params:
                self.note(kind)
            for name, module in callee.cites().items():
                self.cited.setdefault(name, module)
        return self.callees[path]

    def cite(self, module, name):
        self.cited.setdefault(name, module)
        return name

    def part(self, part):
        self.parts.setdefault(part.tag, part)

    def stored(self, part):
        self.parts_stored.setdefault(part.tag, part)

    # ---- names

    def tag(self):
        return ('turn-' if self.loop else '') + str(self.number) + self.arm

    def bound(self):
        """The parameters of a definition."""
        return ' '.join([f'(s : {self.state.denot})' for _ in self.given[:self.lent]] + [f'({name} : {"List ℕ" if isinstance(kind, Slice) else kind.denot})' for name, kind in self.params] + ([self.bound_index()] if self.loop else []))

    def bound_index(self):
        return '(i : ℕ)' if self.loop else ''

    def index_name(self):
        return ' i' if self.loop else ''

    def args(self, inner=False):
        return ' '.join([x.removesuffix(' .now)').lstrip('(') if inner else x for x in self.given]) + self.index_name()

    def inner(self, text):
        """A term, where the slices are the lists that they hold."""
        for p in self.slices.values():
            text = text.replace(f'({p.name} .now)', p.name)
        return text

    def define(self, prefix, tag, denot, text):
        """A name for a value: what the value is stays closed until a proof asks for it."""
        name = f'{prefix}-{tag}'
        inner = self.inner(text)
        self.definitions += [f'unfoldable {name} : {self.bound()} → {denot}', f'{name} {self.args(True)} = {inner}', '',
                             f'{name}-is : {self.bound()} → {inner} ≡ {name} {self.args(True)}', f'unfolding {name}', f'{name}-is {self.args(True)} = refl', '']
        self.defined_names.append(name)
        return f'({name} {self.args()})'

    def defined(self, prefix, tag):
        return f'{prefix}-{tag}-is {self.args()}'

    def learn(self, name, kind, term):
        """A fact that the later lemmas are given by its name. Here it is the term."""
        self.learned.append((name, kind, term))
        return term

    # ---- laws

    def find_law(self, name):
        found = laws(self.crate).get(name)
        if found:
            self.cite(found[0], name)
        return found

    def shown(self, statement, what):
        """The proof of a fact about numbers: by itself, by the count of the loop, or by the law that is named for it."""
        few = re.fullmatch(r'(\d+) ≤ (\d+)', statement)
        if few and few.group(1) == few.group(2):
            return f'(le-refl {few.group(1)})'
        if self.loop and statement == f'i < {self.loop.limit}':
            return 'below'
        name = f'{self.law}-{what}'
        found = self.find_law(name)
        if not found:
            raise SystemExit(f'{self.contract.path}: no law {name} shows {statement}')
        lemma, was = f'{what}-{self.tag()}', ' was' * asks_sound(found)
        self.definitions += [f'{lemma} : {self.bound()} → {"Sound s → " * self.lent}{self.inner(statement)}', f'unfolding {" ".join(self.defined_names)}', f'{lemma} {self.args(True)}{" was" * self.lent} = {name} {self.args(True)}{was}', '']
        return f'({lemma} {self.args()}{" was" * self.lent})'

    def asked_typed(self, law):
        """For each struct that a law asks for as `TypedS`: the fact that the first call that told an S told one of its type, and what the fact says."""
        facts = [(name, kind) for name, kind in self.known] + [(term, kind) for _, kind, term in self.learned]
        return [next(fact for fact in facts if fact[1].startswith(f'Is R{struct}.the-row ')) for struct in asks_typed(law)]

    def requires(self, given=None):
        return self.contract.term(self.contract.requires, given or self.given)
