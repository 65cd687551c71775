"""The walk of one function that is lent a state: statement by statement through its MIR, with a lemma for each."""
import re
from lent.calls import Call
from lent.held import Held, Value, closed, one_line, pointer, row
from lent.kinds import Number, Reference, Slice, kind_of, machine
from lent.leaving import Leaving
from lent.loops import Loop
from lent.mir import Literal, routines, statements
from lent.naming import Naming
from lent.places import read, store
from lent.sources import Contract, hyphens
from public_functions import public_functions

RESERVED = {'a', 'at', 'b', 'e', 'i', 'is', 'k', 'o', 'q', 'r', 's', 'u', 'v', 'x', 'f', 'l', 'h', 'was', 'req'}


def lent_functions():
    """The paths of the functions that are lent a struct, or that lend one of their locals."""
    return [f'{f.crate}::{f.path}' for f in public_functions(roots=('lib', 'main')) if f.params and (re.match(r'&(mut )?[A-Z]', f.params[0][1]) or lends_local(f))]


def lends_local(f):
    """Whether a function by value lends its first parameter, which is a struct, or the copy of it."""
    name, kind = f.params[0]
    copy = re.search(rf'let mut (\w+) = {name};', f.body)
    return bool(re.match('[A-Z]', kind) and re.search(rf'&(mut )?({name}{"|" + copy.group(1) if copy else ""})\b', f.body))


class SliceParameter:
    """A parameter that is a slice: how the walk speaks of it, and what it last was."""

    def __init__(self, name, kind):
        self.name, self.lifetime, self.written = name, kind.lifetime, kind.written
        self.machine = f'(sliceVal ({name} .ptr) (length ({name} .now)))'
        self.row = f'{"MutSlice" if self.written else "ShrSlice"} (named {self.lifetime}) κ{self.lifetime} u8'
        self.owned = f'{self.row} .own {name} ({self.machine} ∷ [])'
        self.last = self.same = None


class Walk(Naming, Leaving):
    """The function, what is known of it, and the walk as far as it is made."""

    def __init__(self, path):
        self.contract = Contract(path)
        self.crate, self.key = self.contract.crate, hyphens(path)
        self.law = hyphens(self.contract.name).removeprefix('drobulets-')
        routine = routines(self.crate)[path]
        kinds = [kind_of(t) for t in routine.types[:routine.many_params + 1]]
        self.result, reference = kinds[0], kinds[1] if isinstance(kinds[1], Reference) else None
        self.state, self.changes = reference and reference.struct, bool(reference) and reference.changes
        self.lent = 1 if reference else 0       # how many of the parameters are the lent state
        self.types = [machine(t) for t in routine.types]
        self.params = [(name + '′' * (name in RESERVED), kind) for (name, _), kind in zip(self.contract.params[self.lent:], kinds[self.lent + 1:])]
        self.slices = {self.lent + 1 + j: SliceParameter(name, kind) for j, (name, kind) in enumerate(self.params) if isinstance(kind, Slice)}
        self.given = ['s'] * self.lent + [f'({name} .now)' if isinstance(kind, Slice) else name for name, kind in self.params]
        self.structs, self.callees, self.tellers, self.parts, self.parts_stored = {}, {}, {}, {}, {}
        self.cited = dict(self.contract.cited)
        for kind in [self.state] * self.lent + [self.result] + [kind for _, kind in self.params]:
            self.note(kind)
        self.definitions, self.before, self.lemmas, self.defined_names = [], [], [], []
        self.held, self.local, self.known, self.learned, self.loop = Held(), {}, [], [], None
        self.cur, self.was, self.number, self.arm, self.tests = 's', 'was', 1, '', []
        self.statements = statements(routine.body)
        self.start()

    # ---- what is held

    def item(self, name):
        """How a proof writes what is held under a name."""
        if name in ('tok', 'lent', 'cell', 'obor', 'obs', 'auth'):
            r = self.state.row
            code = f'({r} .coded .code s)'
            return {'tok': '‵ (flft κ q)', 'lent': '‵ lent', 'cell': f'‵ (cellAt fullShare ({r} .mir) ({self.state.vals} {self.cur}) b o)', 'obor': f'‵ (fobor κ q (Body (mem {r}) b o γ))', 'obs': f'‵ (fobs γ {code})', 'auth': f'‵ (fauth γ {code})'}[name]
        for p in self.slices.values():
            for prefix, text in (('tok', f'flft κ{p.lifetime} q{p.lifetime}'), ('own', p.owned), ('final', f'finally u8 ({p.name} .name) {p.last}')):
                if name == f'{prefix}-{p.lifetime}':
                    return f'‵ ({text})'
        i = int(name[1:])
        if name[0] == 'd':
            return f'‵ (fdies {self.types[i]} l{i})'
        return f'‵ (fat fullShare {self.types[i]} l{i} zero {self.local[i].machine})' if i in self.local else f'‵ (froom {self.types[i]} l{i} zero)'

    def context(self):
        return row(self.item(name) for name in self.held.names)

    def load(self, local):
        return f'(load ! (from ! (stop !)) (look ! {self.held.at(f"l{local}")} refl))'

    def assign(self, dest, rvalue, value, typed=None, last=False):
        how = 'store' if dest in self.local else 'init'
        self.held.say(f'assigns{"-last" * last} ! ({rvalue}) (from ! (stop !)) ({how} ! {self.held.at(f"l{dest}")} refl {typed or value.typed()}) $')
        self.local[dest] = value

    def forget(self, locals_):
        for i in sorted(locals_, reverse=True):
            if i in self.local:
                self.held.say(f'forget ! {self.held.at(f"l{i}")} refl $')
                del self.local[i]

    def copies_reference(self):
        self.held.move('lent')
        self.held.say(f'use1 W (‵ lent ⊛ ‵ lent) (shr-copy 𝓤 H A W (named 0) κ {self.state.row} .twice sr (vptr b o ∷ [])) $')
        self.held.split('lent', 'lent-copy', 'lent')

    def opens_look(self):
        """Where the state is only lent to look at, the shared borrow is looked into for the one read."""
        if self.changes:
            return
        h, r = self.held, self.state.row
        self.copies_reference()
        h.split('lent-copy', 'eq', 'name', 'bor', how='fsplit3')
        h.drop('eq')
        h.drop('name')
        h.move('bor', 'tok')
        h.say(f'looks ! tt {r} (Is {r}) (shows 𝓤 H A {r}) {self.state.vals} {self.state.tells} {self.state.copy} s b o (λ q″ vs. spelt ! {r} (Is {r}) (shows 𝓤 H A {r}) {self.state.vals} {self.state.tells} q″ s vs b o $')
        h.replace(2, 'cell', 'own', 'shut', 'bor')

    def shuts_look(self):
        if self.changes:
            return
        h = self.held
        h.move('cell', 'own', 'shut')
        h.say(f'shuts ! tt {self.state.row} q″ s ({self.state.vals} s) b o $')
        h.replace(3, 'tok')
        h.drop('bor')

    def lend_slice(self, base, at, to):
        p = self.slices[base]
        place = self.held.at(f'l{base}')
        self.assign(at, f'addr ! (from ! (fld ! refl (hop ! (look-in ! {place} (sub ! 0 refl (whole !))) (stop !))))', pointer(f'(vptr ({p.name} .ptr .0) ({p.name} .ptr .1))'), '(tt, tt)')
        self.assign(to, f'agg ! (and-then ! {self.load(at)} (and-then ! (load ! (from ! (fld ! refl (stop !))) (look-in ! {place} (sub ! 1 refl (whole !)))) (no-more !)))', pointer(p.machine), f'(tt, (tt, (record {{ fits = is-{p.name} .0 }}, tt)))')

    def state_becomes(self, tag, text, stands, known, fact):
        """The state that stands in the cell is what the text says: it has a name of its own from here."""
        left = self.define('left', tag, self.state.denot, text)
        same = f'({known} ∙ {self.defined("left", tag)})'
        self.held.rewrite('cell', f'(λ (h : {self.state.denot}). ‵ (cellAt fullShare ({self.state.row} .mir) ({self.state.vals} h) b o))', same)
        self.cur = left
        self.was = self.learn(f'was-{tag}', f'Sound {left}', f'(subst Sound {same} {fact})')

    def local_becomes(self, local, tag, text, fact, known=None):
        """The same of a struct that stands in a local."""
        kind = self.local[local].kind
        made = self.define('made', tag, kind.denot, text)
        same = f'({known + " ∙ " if known else ""}{self.defined("made", tag)})'
        self.held.rewrite(f'l{local}', f'(λ (h : {kind.denot}). ‵ (fat fullShare {self.types[local]} l{local} zero {kind.val("h")}))', same)
        value = Value(made, kind, None)
        value.fact = self.learn(f'is-{tag}', f'Is {kind.row} {made} ({value.machine} ∷ [])', f'(subst (λ (h : {kind.denot}). Is {kind.row} h ({kind.val("h")} ∷ [])) {same} {fact})')
        self.local[local] = value

    # ---- the statements

    def start(self):
        """The parameters stand in their locals."""
        many = len(self.types)
        locals_ = [x for i in reversed(range(many)) for x in (f'l{i}', f'd{i}')]
        self.held.names = (['cell', 'obor', 'obs', 'auth'] if self.changes else ['tok', 'lent'] * self.lent) + locals_ + [x for p in self.slices.values() for x in (f'tok-{p.lifetime}', f'own-{p.lifetime}')]
        self.first = list(self.held.names)
        if self.state:
            self.local[1] = pointer('(vptr b o)')
        for i, (name, kind) in enumerate(self.params, self.lent + 1):
            self.local[i] = pointer(self.slices[i].machine) if isinstance(kind, Slice) else Value(name, kind, f'is-{name}')

    def do(self, st):
        if st.what == 'call':
            Call(self, st).walk_it()
        elif st.what == 'read' and self.state:
            read(self, st)
        elif st.what == 'store' and self.state:
            store(self, st)
        elif st.what == 'copy' and isinstance(st.source, Literal):
            self.assign(st.dest, 'of-opd ! (lit ! tt)', Value(st.source.number, Number(st.source.width), '(refl, lit< tt)'), '(tt, record { fits = lit< tt })')
        elif st.what == 'copy':
            self.assign(st.dest, f'of-opd ! {self.load(st.source)}', self.local[st.source])
        else:
            raise SystemExit(f'{self.contract.path}: no step for {st.what}')

    def next_lemma(self, name):
        """The lemma of the next statement, with what is known."""
        here = {n: t for n, _, t in self.learned}
        return ' '.join([name] + [here.get(n, n) for n, _ in self.known + [(n, t) for n, t, _ in self.learned]])

    def settle(self):
        """What was learned is known by its name from here."""
        names = {term: name for name, _, term in self.learned}
        for value in self.local.values():
            value.fact = names.get(value.fact, value.fact)
        for p in self.slices.values():
            p.same = names.get(p.same, p.same)
        self.was = names.get(self.was, self.was)
        self.known += [(name, kind) for name, kind, _ in self.learned]
        self.learned = []

    def lemma(self, name, known, context, code, lines):
        facts = ' '.join(f'({n} : {k})' for n, k in known)
        body = one_line(lines)
        return [f'    {name} : {facts + " → " if facts else ""}Sq W ({context}) (runs (𝓣 .C) (𝓣 .Λ) En {code} (atRet En Post))'] + closed([f'    {name} {" ".join(n for n, _ in known)} ='] + ['        ' + x for x in body]) + ['']

    def walk(self):
        """All lemmas, the last first."""
        for st in self.statements:
            name, known, context = f'step-{self.number}', list(self.known), self.context()
            self.held.lines = []
            if st.what == 'loop':
                self.lemmas.append(Loop(self, st).lines(name))
                self.number += 1
                continue
            if st.what == 'return':
                self.leave(False)
            elif st.what == 'branch':
                self.branch(st)
            else:
                self.do(st)
            self.number += st.size
            if st.what != 'return':
                if st.what != 'branch':
                    self.held.say(self.next_lemma(f'step-{self.number}'))
            self.lemmas.append(self.lemma(name, known, context, f'code-mir.t-{int(name[5:])}', self.held.lines))
            self.settle()
        return [line for lemma in reversed(self.lemmas) for line in lemma]
