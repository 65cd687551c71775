"""A call: what it is given, and what it says of its result and of what it was lent."""
from lent.held import Held, Value, nest, pointer, product, row
from lent.kinds import Number, Reference, Slice, kind_of
from lent.mir import Literal, routines
from lent.sources import Contract, hyphens, path_to


class Callee:
    """A function that a walk calls."""

    def __init__(self, path, crate):
        self.contract = Contract(path)
        routine = routines(crate)[path]
        self.result, *self.params = (kind_of(t) for t in routine.types[:routine.many_params + 1])
        self.alias, self.key = hyphens(self.contract.name), hyphens(path)
        self.crate, self.module = self.contract.crate, path.split('::', 1)[1].replace('::', '.')

    @property
    def spoken(self):
        return f'C-{self.alias} 𝓤 H A at-mem routines'

    def uses(self, own):
        home = f'Rattle·{self.crate}·proofs.proofs.{self.module}' if self.crate == own else f'Rattle·{self.crate}.proofs.{self.module}'
        return [f'use {home} as fn-{self.alias}', f'use {home}.Symbol as def-{self.alias}', f'use {home}.Symbol.{{name as #{self.key}}}', f'use {home}.Met as met-{self.alias}']

    def cites(self):
        """What its contract takes from where."""
        return self.contract.cited

    def contract_lines(self):
        return [f'  abbrev C-{self.alias} : Contract 𝓤', f'  C-{self.alias} = tripleOf 𝓤 H A fn-{self.alias}.signature (fn-{self.alias}.spec 𝓤 H A at-mem routines)', '']


class Lent:
    """A reference that a call is given: the names of its token and of itself among what is held, and how a proof writes them."""

    def __init__(self, token, name, lifetime, share, owned, denotes, machine):
        self.token, self.name, self.lifetime, self.share, self.owned, self.denotes, self.machine = token, name, lifetime, share, owned, denotes, machine


class Cell:
    """The cell of the struct that a call is lent: that of the state, or of a local. `at` is where it lies, `name` its name among what is held."""

    def __init__(self, walk, local):
        self.walk, self.local = walk, None if walk.state and local == 1 else local
        if self.local is None:
            self.kind, self.term, self.fact, self.at, self.name = walk.state, walk.cur, walk.was, 'b o', 'cell'
        else:
            x = walk.local[local]
            self.kind, self.term, self.fact, self.at, self.name = x.kind, x.term, x.fact, f'l{local} zero', f'l{local}'

    def laws(self):
        r = self.kind.row
        return f'{r} (Is {r}) (shows 𝓤 H A {r}) {self.kind.makes} {self.kind.vals} {self.kind.tells} {self.at}'

    def place(self):
        """How a statement names it."""
        return f'(from ! (hop ! (look ! {self.walk.held.at("l1")} refl) (stop !)))' if self.local is None else '(from ! (stop !))'

    def raw(self):
        """What stands in a local is lent as what lies behind a reference does: at the raw form of its type."""
        if self.local is not None:
            self.walk.held.say(f'use1 W (‵ (cellAt fullShare ({self.kind.row} .mir) ({self.kind.vals} {self.term}) {self.at})) (W .laws .at-raw fullShare {self.walk.types[self.local]} {self.at} {self.kind.val(self.term)}) $')

    def typed(self, term):
        if self.local is not None:
            τ, v = self.walk.types[self.local], self.kind.val(term)
            self.walk.held.say(f'use1 W (‵ (fat fullShare {τ} {self.at} {v})) (W .laws .raw-at fullShare {τ} {self.at} {v}) $')

    def becomes(self, tag, text, stands, known, fact):
        if self.local is None:
            self.walk.state_becomes(tag, text, stands, known, fact)
        else:
            self.walk.local_becomes(self.local, f'{tag}-left', text, fact, known)


class Call:
    """One call of a walk."""

    def __init__(self, walk, st):
        self.walk, self.st, self.callee = walk, st, walk.callee(st.path)
        self.tag = walk.tag()
        self.cell, self.changes = st.lent and Cell(walk, st.lent[0]), False
        self.args = [self.argument(kind, arg) for kind, arg in zip(self.callee.params, st.args)]
        self.lent = [x for x in self.args if isinstance(x, Lent)]
        self.given = [x.denotes_now if isinstance(x, Lent) else x.term for x in self.args]

    def argument(self, kind, arg):
        w = self.walk
        if isinstance(arg, Literal):
            return Value(arg.number, Number(arg.width), '(refl, lit< tt)')
        if isinstance(kind, Reference):
            c = self.cell
            if c:
                self.changes = kind.changes
                ref = f'(record {{ ptr = ({c.at.replace(" ", ", ")}); name = δ; now = {c.term} }})'
                made = f'‵ ({"MutRef" if kind.changes else "ShrRef"} (named 0) (α ∷ []) {c.kind.row} .own {ref} (vptr {c.at} ∷ []))'
                x = Lent('tok-α', 'ref-α', '(α ∷ [])', 'fullShare', made, ref, f'(vptr {c.at})')
            else:
                x = Lent('tok', 'lent-copy', 'κ', 'q', '‵ lent', 'sr', '(vptr b o)')
            x.denotes_now, x.written = c.term if c else w.cur, kind.changes
            return x
        if isinstance(kind, Slice):
            slices = {to: base for base, _, to in self.st.slices}
            p = w.slices[slices.get(arg, arg)]
            x = Lent(f'tok-{p.lifetime}', f'own-{p.lifetime}', f'κ{p.lifetime}', f'q{p.lifetime}', f'‵ ({p.owned})', p.name, p.machine)
            x.denotes_now, x.written, x.slice = f'({p.name} .now)', p.written, p
            return x
        return w.local[arg]

    def also(self):
        """The numbers that a call which is lent a struct anew speaks of."""
        return (' α δ' + ('' if self.cell.local is None else f' {self.cell.name}')) if self.cell else ''

    def lines_before(self):
        """What the call is given, and that it is what the callee requires. The proofs that the arguments fit are named."""
        w, callee = self.walk, self.callee
        bound = w.bound_index() + ' (α : ℕ) (δ : GName)' * bool(self.cell) + (f' ({self.cell.name} : ℕ)' if self.cell and self.cell.local else '')
        κs, qs = nest([x.lifetime for x in self.lent]), nest([x.share for x in self.lent])
        ds = nest([str(x.denotes if isinstance(x, Lent) else x.term) for x in self.args])
        vs = nest([f'{x.machine} ∷ []' for x in self.args])
        index = w.index_name()
        lines = [f'  abbrev to-{self.tag} : {bound + " → " if bound.strip() else ""}{callee.spoken} .Ghost', f'  to-{self.tag}{index}{self.also()} = (({κs}, {qs}, tt, {ds}, {vs}), tt)', '']
        plain = [x for x in self.args if isinstance(x, Value)]
        needs = [f'Is {x.kind.row} {x.term} ({x.machine} ∷ [])' for x in plain]
        required = [callee.contract.term(callee.contract.requires, [str(g) for g in self.given])] if callee.contract.requires else []
        held = [y for x in self.lent for y in (f'‵ (flft {x.lifetime} {x.share})', x.owned)]
        facts = [f'is{i}' for i in range(len(plain))] + ['req'] * len(required)
        left = f'(⋆ 𝓤 H A ({row(held)}))' if held else '(emp 𝓤)'
        arrow = ' → '.join(([bound.strip()] if bound.strip() else []) + needs + required)
        lines += [f'  goes-{self.tag} : {arrow + " → " if arrow else ""}ent 𝓤 {left} ({callee.spoken} .pre (to-{self.tag}{index}{self.also()}))',
                  f'  goes-{self.tag}{index}{self.also()} {" ".join(facts)} = qed W ({row(held)}) ∵ ' + ('says ! req $ ' if required else '') + self.gathers(plain)
                  + ('frame ! $ done !' if required else 'join ! $ frame ! $ done !'), '']
        return lines

    def gathers(self, plain):
        """The steps that put together what the parameters own, and their tokens."""
        h = Held([y for x in self.lent for y in (x.token, x.name)])
        h.say('nothing ! $')
        h.names.insert(0, 'all')
        for x in reversed(self.args):
            if isinstance(x, Lent):
                h.join(x.name, 'all', 'all', 'fjoin')
            else:
                h.say(f'owned ! {x.kind.row} (Is {x.kind.row}) {x.kind.makes} {x.term} _ is{plain.index(x)} $ fjoin ! $')
        h.say('nothing ! $')
        h.names.insert(0, 'tokens')
        for x in reversed(self.lent):
            h.join(x.token, 'tokens', 'tokens')
        h.move('tokens', 'all')
        return ' '.join(h.lines) + ' '

    def requirement(self):
        """The proof of what the callee requires, or nothing."""
        if not self.callee.contract.requires:
            return []
        return [self.walk.shown(self.callee.contract.term(self.callee.contract.requires, [str(g) for g in self.given]), self.callee.alias)]

    def said(self, x):
        """What the callee says of the result x, and of what it was lent to change, whose last values are zs."""
        c, given = self.callee.contract, [str(g) for g in self.given]
        facts = []
        for left in c.facts:
            if left == 'r':
                facts.append(f'{x} ≡ {c.result(given)}')
            else:
                i = next(i for i, (name, _) in enumerate(c.params) if left == f'now ({name} .exit)')
                facts.append(f'zs{path_to(i)} ≡ {c.last(i, given)}')
        return facts[0] if len(facts) == 1 else ' × '.join(f'({f})' for f in facts), list(c.facts)

    def fact(self, left):
        """The proof of one clause, among what was heard."""
        order = list(self.callee.contract.facts)
        i = order.index(left)
        return 'e' if len(order) == 1 else f'(e .{i})'

    def walk_it(self):
        w, h, c, st = self.walk, self.walk.held, self.callee, self.st
        given = [str(g) for g in self.given]
        w.before += self.lines_before()
        h.say(f'-- {c.contract.path}')
        cell = self.cell
        if cell:
            w.assign(st.lent[1], f'addr ! {cell.place()}', pointer(f'(vptr {cell.at})'), '(tt, tt)')
            h.move(cell.name)
            cell.raw()
            h.say(f'{"lends-cell-mut" if self.changes else "lends-cell"} ! tt {cell.laws()} {cell.term} {cell.fact} (λ α δ.')
            h.replace(1, 'tok-α', 'ref-α', 'back-α')
        for base, at, to in st.slices:
            w.lend_slice(base, at, to)
        for x in self.lent:
            if x.name == 'lent-copy':
                w.copies_reference()
        names = [y for x in self.lent for y in (x.token, x.name)]
        while len(names) > 3:
            h.join(*names[-2:], f'{names[-2]} ..')
            names[-2:] = [f'{names[-2]} ..']
        h.move(*names)
        ghost = f'(to-{self.tag}{w.index_name()}{self.also()})'
        facts = [x.fact for x in self.args if isinstance(x, Value)] + self.requirement()
        h.say(f'use{len(names)} W (raw ({c.spoken} .pre {ghost})) (goes-{self.tag}{w.index_name()}{self.also()} {" ".join(facts)}) $')
        h.replace(len(names), 'call')
        operands = ''.join(f'(and-then ! {"(lit ! tt)" if isinstance(a, Literal) else w.load(a)} ' for a in st.args) + '(no-more !)' + ')' * len(st.args)
        h.say(f'calls-at ! (fmOf 𝓤 H (W .laws) 𝓣) ({c.spoken}) known-{c.alias} {ghost} {operands} (λ v.')
        κs, ds = nest([x.lifetime for x in self.lent]), nest([str(x.denotes if isinstance(x, Lent) else x.term) for x in self.args])
        tokens = ' ⊛ '.join([f'‵ (flft {x.lifetime} {x.share})' for x in self.lent] + ['‵ ftrue'])
        h.say(f'use1 W (later (some (λ (r : {c.result.denot}). (({tokens}) ⊛ ‵ ({c.result.row} .own r (v ∷ []))) ⊛ raw (ensured 𝓤 H A fn-{c.alias}.ended (fn-{c.alias}.clauses 𝓤 H A at-mem routines) {κs} {ds} tt r)))) (id⊢ 𝓤 _) $ await ! tt $ pick ! (λ x.')
        h.replace(1, 'mine and said')
        h.split('mine and said', 'mine', 'said')
        zs = product([(cell.kind if cell else w.state).denot if isinstance(x, Lent) and x.written and not hasattr(x, 'slice') else 'List ℕ' if isinstance(x, Lent) and x.written else 'Unit {0}' for x in self.args])
        said, _ = self.said('x')
        h.move('said')
        h.say(f'use1 W (some (λ (zs : {zs}). ‵ (lasts fn-{c.alias}.ended {κs} {ds} zs) ⊛ raw (fact 𝓤 ({said})))) (id⊢ 𝓤 _) $ pick ! (λ zs.')
        h.split('said', 'lasts', 'fact')
        h.move('fact')
        h.say(f'heard ! ({said}) (λ e.')
        h.replace(1)
        self.take_lasts()
        h.split('mine', 'tokens', 'own')
        h.move('own')
        h.say(f'facts ! {c.result.row} (Is {c.result.row}) (shows 𝓤 H A {c.result.row}) x (v ∷ []) (λ is.')
        h.replace(1)
        for x in self.lent:
            h.split('tokens', x.token, 'tokens')
        h.drop('tokens')
        # the result stands in its local, under its own name
        told = w.define('told', self.tag, c.result.denot, c.contract.result(given))
        w.tellers[told] = c.alias
        is_told = f'({self.fact("r")} ∙ {w.defined("told", self.tag)})'
        value = Value(told, c.result, None)
        how = 'store' if st.dest in w.local else 'init'
        h.say(f'land ! (from ! (stop !)) ({how} ! {h.at(f"l{st.dest}")} refl ({c.result.lawful} .typed x _ is .0)) $')
        spoken = f'{c.result.row} {c.result.vals} {c.result.tells} x {told} v is {is_told}'
        h.rewrite(f'l{st.dest}', f'(λ (w : Val). ‵ (fat fullShare {w.types[st.dest]} l{st.dest} zero w))', f'(spelled-as {spoken})')
        value.fact = w.learn(f'is-{self.tag}', f'Is {c.result.row} {told} ({value.machine} ∷ [])', f'(is-spelled {spoken})')
        w.local[st.dest] = value
        if cell:
            self.take_back(given)

    def take_lasts(self):
        """What the callee says of the last values of what it was lent to change."""
        w, h = self.walk, self.walk.held
        if not any(x.written for x in self.lent):
            h.drop('lasts')
            return
        for i, x in enumerate(self.args):
            h.split('lasts', 'last', 'lasts', how='fsplit')
            if not (isinstance(x, Lent) and x.written):
                h.drop('last')
            elif hasattr(x, 'slice'):
                p, given = x.slice, [str(g) for g in self.given]
                h.split('last', f'final-{p.lifetime}', 'same', how='fsplit')
                h.move('same')
                h.say('feqL ! (λ l.')
                h.replace(1)
                bytes_now = w.define('bytes', self.tag, 'List ℕ', self.callee.contract.last(i, given))
                left = f'now ({self.callee.contract.params[i][0]} .exit)'
                is_now = f'({self.fact(left)} ∙ {w.defined("bytes", self.tag)})'
                h.rewrite(f'final-{p.lifetime}', f'(λ (us : List ℕ). ‵ (finally u8 ({p.name} .name) us))', is_now)
                p.last = bytes_now
                p.same = w.learn(f'same-{self.tag}', f'length {bytes_now} ≡ length ({p.name} .now)', f'(subst (λ (us : List ℕ). length us ≡ length ({p.name} .now)) {is_now} l)')
            else:
                h.move('last')
                h.names[0] = 'last-α'
                h.move('lasts')
        h.drop('lasts')

    def take_back(self, given):
        """The struct that was lent on comes back."""
        h, cell = self.walk.held, self.cell
        if not self.changes:
            h.move('tok-α', 'back-α')
            h.say(f'back-cell ! tt {cell.laws()} {cell.term} $')
            cell.typed(cell.term)
            h.replace(2, cell.name)
            return
        h.move('tok-α', 'back-α', 'last-α')
        i = next(i for i, x in enumerate(self.args) if isinstance(x, Lent) and x.name == 'ref-α')
        h.say(f'back-cell-mut ! tt {cell.laws()} (zs{path_to(i)}) (λ was-left.')
        cell.typed(f'(zs{path_to(i)})')
        h.replace(3, cell.name)
        left = f'now ({self.callee.contract.params[i][0]} .exit)'
        cell.becomes(self.tag, self.callee.contract.last(i, given), f'(zs{path_to(i)})', self.fact(left), 'was-left')
