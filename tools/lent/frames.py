"""The parts of a proof around its walk."""
from lent.held import Held, closed, nest, one_line, product, row
from lent.kinds import Slice
from lent.sources import hyphens, path_to

MODEL = '{M : Type 1} (𝓤 : URA M) (H : Heap 𝓤) (A : Atoms 𝓤)'
ROUTINES = '(at-mem : Memory → SProp 𝓤) (routines : Routine → Fun 𝓤)'


class Frame:
    """What the parts around one walk speak of."""

    def __init__(self, walk):
        self.walk = walk
        w = walk
        slices = list(w.slices.values())
        self.many = w.lent + len(slices)
        κ, q = ([x] * w.lent + [f'{x}{p.lifetime}' for p in slices] for x in ('κ', 'q'))
        self.κs, self.qs = nest(κ), nest(q)
        self.rows = [p.row if p else kind.row for p, kind in self.params()]
        self.machines = [p.machine if p else kind.val(name) for (name, _), (p, kind) in zip(w.params, self.params())]
        self.denots = ['RefT (List ℕ)' if p else kind.denot for p, kind in self.params()]
        self.given = f' ({" ".join(κ)} : Lft) ({" ".join(q)} : Share)' * bool(κ) + (f' (b o : ℕ) (γ : GName) (s : {w.state.denot})' if w.state else '') + ''.join(f' ({name} : {d})' for (name, _), d in zip(w.params, self.denots))
        self.bound = f'(({self.κs}, {self.qs}, tt, a, at), tt)'
        self.fits = [f'Room u8 (length ({p.name} .now))' if p else f'Is {kind.row} {name} ({kind.val(name)} ∷ [])' for (name, _), (p, kind) in zip(w.params, self.params())]
        self.written = [p for p in slices if p.written]
        self.state_row = f'(plain (λ _. {w.state.row}))' if w.state else None

    def head(self):
        """What the proof says of itself."""
        w = self.walk
        how = 'the struct stands in a local, is lent from there, and comes back'
        if w.state:
            how = f'the borrow of the {w.state.denot} is opened once, the {w.state.denot} is read, lent on and changed in its place, and the borrow is closed at what it then is' if w.changes else f'the {w.state.denot} is read in its place, and lent on as it was lent'
        return [f'-- `{w.contract.path}` meets its contract, by a walk of its MIR: {how}.', '-- All that the proof knows of a callee is that it meets its contract. Written by tools/lent_proofs. Assumes nothing.']

    def params(self):
        return [(self.walk.slices.get(i), kind) for i, (_, kind) in enumerate(self.walk.params, self.walk.lent + 1)]

    def slot(self, p, kind):
        return f'(shrSliceOf ({p.lifetime} ∷ []) tt (plain (λ _. u8)))' if p else f'(plain (λ _. {kind.row}))'

    def opening(self):
        """What is had at exit, the fields that are read and stored, the values along the walk, and the contracts cited."""
        w = self.walk
        stays = [f'stay-ref (0 ∷ []) tt {self.state_row}' if w.changes else f'stay-dropped (shrRefTo (0 ∷ []) tt {self.state_row}) yes'] * w.lent
        stays += [f'gave-slice ({p.lifetime} ∷ []) tt (plain (λ _. u8))' if p and p.written else f'stay-dropped {self.slot(p, kind)} yes' for p, kind in self.params()]
        lines = ['abbrev stayed : Stays (f.ended .signature .params) (f.ended .kept)', 'stayed = ' + nest(stays), '']
        if w.state:
            lines += [f'abbrev Sound : {w.state.denot} → Type 0', f'Sound h = Is {w.state.row} h ({w.state.vals} h)', '']
        for part in w.parts.values():
            lines += part.is_lemma() + part.lies_lemma()
        for part in w.parts_stored.values():
            lines += part.with_lemmas()
        lines += w.definitions + [f'module _ {MODEL} {ROUTINES} where', '  -- the contracts that the proof cites']
        for callee in w.callees.values():
            lines += callee.contract_lines()
        return lines

    def names(self):
        """The parameters, the contract's end, and what each call is given."""
        w = self.walk
        tokens = ' ⊛ '.join([f'‵ (flft κ{p.lifetime} q{p.lifetime})' for p in w.slices.values()] + ['‵ ftrue'])
        lines = [f'module _ {MODEL} (W : Given 𝓤 H A) {ROUTINES}{self.given} where']
        if w.state:
            lines = [f'-- the {w.state.denot} is at (b, o) under the name γ'] + lines + [f'  abbrev sr : RefT {w.state.denot}', '  sr = record { ptr = (b, o); name = γ; now = s }', '']
        lines += [f'  abbrev a : {product([f"RefT {w.state.denot}" for _ in range(w.lent)] + self.denots)}', f'  a = {nest(["sr"] * w.lent + [name for name, _ in w.params])}', '',
                 f'  abbrev at : {product(["List Val"] * (w.lent + len(w.params)))}', f'  at = {nest(["vptr b o ∷ []"] * w.lent + [m + " ∷ []" for m in self.machines])}', '',
                 '  abbrev tokens : Item 𝓤', f'  tokens = {tokens}', '']
        if w.state and not w.changes:
            lines += ['  abbrev lent : Fml', f'  lent = ShrRef (named 0) κ {w.state.row} .own sr (vptr b o ∷ [])', '']
        return lines + ['  abbrev Post : Val → SProp 𝓤', f'  Post = walkOf 𝓤 H A f.ended stayed (f.clauses 𝓤 H A at-mem routines) .post {self.bound}', ''] + self.exits() + w.before

    def exits(self):
        """The last step: what is had and known at exit is what the contract says."""
        w = self.walk
        had = ['‵ (flft κ q)'] * w.lent + ['tokens'] + [f'‵ (finally u8 ({p.name} .name) zs)' for p in self.written]
        if w.changes:
            had = [f'‵ (fobs γ ({w.state.row} .coded .code r))', f'‵ (fbor κ (Body (mem {w.state.row}) b o γ))'] + had
        takes = [f'(r : {w.state.denot})' for _ in range(w.changes)] + [f'(k : {w.result.denot}) (v : Val)'] + ['(zs : List ℕ)'] * len(self.written)
        knows = [f'k ≡ {w.contract.result(w.given)}'] + ([f'r ≡ {w.contract.last(0, w.given)}'] if w.changes else [])
        for p in self.written:
            knows.append(f'zs ≡ {w.contract.last(w.lent + [n for n, _ in w.params].index(p.name), w.given)}')
        es = [f'e{n}' for n in '₁₂₃'[:len(knows)]]
        knows += [f'length zs ≡ length ({p.name} .now)' for p in self.written] + [f'Is {w.result.row} k (v ∷ [])']
        last = nest((['r'] if w.changes else ['tt'] * w.lent) + ['zs' if p and p.written else 'tt' for p, _ in self.params()])
        fits = nest(['tt'] * w.lent + ['l' if p and p.written else 'tt' for p, _ in self.params()])
        names = ' '.join(['r'] * w.changes + ['k v'] + ['zs'] * len(self.written) + es + ['l'] * len(self.written) + ['is'])
        rest = 'nothing ! $ '
        for p, _ in reversed(self.params()):
            rest += f'move ! ({2 if w.changes else 1} ∷ 0 ∷ []) $ fjoin ! $ ' if p and p.written else 'nothing ! $ fjoin ! $ '
        said = es[0] if len(es) == 1 else f'({", ".join(es)})'
        lines = [f'  exits : {" ".join(takes)} → {" → ".join(knows)} → ent 𝓤 (⋆ 𝓤 H A ({row(had)})) (Post v)', f'  exits {names} =', f'      qed W ({row(had)}) ∵',
                 f'      suffices ! _ (ends-at 𝓤 H A f.ended stayed (f.clauses 𝓤 H A at-mem routines) W {self.bound} v k {last} {fits}) $ says ! {said} $']
        if w.changes:
            lines += ['      move ! (2 ∷ 3 ∷ []) $ join ! $ frame ! $ feqI ! (List Val) (vptr b o ∷ []) (vptr b o ∷ []) refl $ fjoin3 ! $', f'      {rest}move ! (1 ∷ 0 ∷ []) $ fjoin ! $']
        else:
            lines += [f'      {"join ! $ " * w.lent}frame ! $ {rest}{"nothing ! $ fjoin ! $" * w.lent}']
        return lines + [f'      owned ! {w.result.row} (Is {w.result.row}) {w.result.makes} k _ is $ move ! (1 ∷ 0 ∷ []) $ done !', '']

    def known(self):
        return ''.join(f' (known-{c.alias} : Triple 𝓤 (𝓣 .C #{c.key}) ({c.spoken}))' for c in self.walk.callees.values())

    def steps(self, lemmas):
        w = self.walk
        fits = ''.join(f' (is-{name} : {fit})' for (name, _), fit in zip(w.params, self.fits)) + (f' (req : {w.requires()})' if w.contract.requires else '')
        locals_ = ' '.join(f'l{i}' for i in range(len(w.types)))
        return [f'  module _ (𝓣 : Tables 𝓤 H){self.known()}{fits}{" (was : Sound s)" * w.lent} ({locals_} : ℕ) where', '    abbrev En : Env 𝓤 H', '    En = ' + row(f'({t}, l{i})' for i, t in enumerate(w.types)), ''] + lemmas

    def entry(self):
        """From the parameters as they are passed to the first step."""
        w, h = self.walk, Held(['tokens', 'owned'])
        slices = list(w.slices.values())
        if w.state:
            h.split('tokens', 'tok', 'tokens')
        for p in slices:
            h.split('tokens', f'tok-{p.lifetime}', 'tokens')
        h.drop('tokens')
        if w.state:
            h.split('owned', 'lent', 'owned', how='fsplit')
        for p, _ in self.params():
            h.split('owned', f'own-{p.lifetime}' if p else 'own', 'owned', how='fsplit')
            if not p:
                h.drop('own')
        h.drop('owned')
        if w.changes:
            h.split('lent', 'eq', 'obs', 'bor', how='fsplit3')
            h.drop('eq')
        values = row(['vptr b o'] * w.lent + self.machines)
        h.say(f'enter ! (𝓣 .C) (𝓣 .Λ) code.function ({values}) _ $ ' + ''.join(f'alloc1 ! (λ l{i}. ' for i in range(len(w.types))) + 'alloc0 ! $ params1 ! $')
        h.names = [x for i in reversed(range(len(w.types))) for x in (f'l{i}', f'd{i}')] + h.names
        typed = [f'(tt, (tt, (record {{ fits = is-{p.name} .0 }}, tt)))' if p else f'({kind.lawful} .typed {name} _ is-{name} .0)' for (name, _), (p, kind) in zip(w.params, self.params())]
        typed = ['(tt, tt)'] * w.lent + typed
        h.say(''.join(f'pass1 ! (init ! {h.at(f"l{i}")} refl {t}) $ ' for i, t in enumerate(typed, 1)) + 'pass0 ! $')
        if w.state:
            self.borrow_opened(h)
        h.keep(*w.first)
        req = ' req' * bool(w.contract.requires)
        fits = ''.join(f' is-{name}' for name, _ in w.params)
        h.say(f'step-1 𝓣 {" ".join(f"known-{c.alias}" for c in w.callees.values())}{fits}{req}{" was" * w.lent} {" ".join(f"l{i}" for i in range(len(w.types)))}')
        need = ''.join(f'{fit} → ' for fit in self.fits) + (f'{w.requires()} → ' if w.contract.requires else '')
        first = [f'{"MutRef" if w.changes else "ShrRef"} (named 0) κ {w.state.row}'] if w.state else []
        return [f'  module _ (𝓣 : Tables 𝓤 H){self.known()} where',
                f'    walk : {need}ent 𝓤 (onEntry 𝓤 H A f.signature {self.κs} {self.qs} a at) (WpFn 𝓤 H (𝓣 .C) (𝓣 .Λ) code.function ({values}) Post)'] + closed(
            [f'    walk{fits}{req} =', f'        qed W ({"(‵ (flft κ q) ⊛ tokens)" if w.state else "tokens"} ∷ ‵ (owns ({row(first + self.rows)}) a at) ∷ []) ∵'] + ['        ' + x for x in one_line(h.lines)]) + ['']

    def borrow_opened(self, h):
        """What the lent state is, seen behind the reference: of a `&mut` the borrow stays open."""
        w, r = self.walk, self.walk.state.row
        spelt = f'{r} (Is {r}) (shows 𝓤 H A {r}) {w.state.vals} {w.state.tells}'
        peeks = f'peeks ! {r} (Is {r}) (shows 𝓤 H A {r}) s ({w.state.vals} s) (λ was.'
        if w.changes:
            h.move('obs', 'bor', 'tok')
            h.say(f'opens ! tt {r} {{h = s}} b o (λ vs. spelt ! {spelt} fullShare s vs b o $')
            h.replace(3, 'cell', 'own', 'obor', 'obs', 'auth')
            h.move('own')
            h.say(peeks)
            h.drop('own')
        else:
            w.held = h
            w.opens_look()
            h.move('own')
            h.say(peeks)
            w.shuts_look()

    def closing(self):
        """From the walk to the contract."""
        w, many = self.walk, self.many
        callees = list(w.callees.values())
        ks = ' '.join(f'k{i}' for i in range(len(callees)))
        known = ''.join(f'Triple 𝓤 (𝓣 .C #{c.key}) ({c.spoken}) → ' for c in callees)
        vals = ['slice-vals' if p else kind.vals for p, kind in self.params()]
        tells = [f'{"mut" if p.written else "shr"}-slice-tells (named {p.lifetime}) (κs{path_to(p.lifetime)}) u8' if p else kind.tells for p, kind in self.params()]
        first = [f'{"mut" if w.changes else "shr"}-tells (named 0) (κs .0) {w.state.row}'] if w.state else []
        goes = [f'goes-ref 𝓤 H A W {many} 0 tt {self.state_row}' if w.changes else f'goes-dropped 𝓤 H A W {many} (shrRefTo (0 ∷ []) tt {self.state_row}) yes (λ κs x f. refl)'] * w.lent
        goes += [f'goes-gave-slice 𝓤 H A W {many} {p.lifetime} tt (plain (λ _. u8))' if p and p.written else f'goes-dropped 𝓤 H A W {many} {self.slot(p, kind)} yes (λ κs x f. refl)' for p, kind in self.params()]
        shares = ' '.join(f'({x}{path_to(i)})' for x in ('κs', 'qs') for i in range(many))
        args = [f'(a{path_to(i)})' for i, _ in enumerate(w.params, w.lent)]
        fits = ''.join(f' (are{path_to(i)}{" .0 .1" if p else ""})' for i, (p, _) in enumerate(self.params(), w.lent))
        start = f'(walk 𝓤 H A W at-mem routines {shares} {"(a .0 .ptr .0) (a .0 .ptr .1) (a .0 .name) (a .0 .now) " * w.lent}{" ".join(args)} 𝓣 {ks}{fits})'
        taken = w.requires(['(a .0 .now)'] * w.lent + args) if w.contract.requires else ''
        body = f'needs 𝓤 ({taken}) _ {start}' if taken else f'via 𝓤 _ (fst∗ 𝓤 _ (emp 𝓤)) {start}'
        name = hyphens(w.contract.name)
        walks = 'Walks 𝓤 H A f.ended stayed (WpFn 𝓤 H (𝓣 .C) (𝓣 .Λ) code.function) (f.clauses 𝓤 H A at-mem routines)'
        met = [f'    (cited 𝓤 H (C-{c.alias} 𝓤 H (𝓖 .A) (𝓜 .mem) (𝓡 .run)) 𝓜 𝓡 code.env #{c.key} def-{c.alias}.routine code.calls-{c.key} (met-{c.alias}.met 𝓤 H 𝓜 𝓖 𝓡))' for c in callees]
        lines = [f'module _ {MODEL} (W : Given 𝓤 H A) {ROUTINES} where', f'  walks : (𝓣 : Tables 𝓤 H) → {known}{walks}',
                 f'  walks 𝓣 {ks} = walked 𝓤 H A f.ended stayed (f.clauses 𝓤 H A at-mem routines) (WpFn 𝓤 H (𝓣 .C) (𝓣 .Λ) code.function) (λ κs. {nest(["ptr-vals"] * w.lent + vals)})',
                 f'      (λ κs. {nest(first + tells)})', f'      (λ κs qs bounds a _ are. {body})', '',
                 f'  goes : AllGo 𝓤 H A W {many} (f.signature .params) (f.ended .kept) stayed', '  goes = ' + nest(goes), '',
                 f'meets : {MODEL} (W : Given 𝓤 H A) {ROUTINES} (𝓣 : Tables 𝓤 H)', f'    → {known}Meets 𝓤 H A f.signature (WpFn 𝓤 H (𝓣 .C) (𝓣 .Λ) code.function) (f.spec 𝓤 H A at-mem routines)',
                 f'meets 𝓤 H A W at-mem routines 𝓣 {ks} = walk-meets 𝓤 H A f.ended stayed W (goes 𝓤 H A W at-mem routines) (f.clauses 𝓤 H A at-mem routines) (WpFn 𝓤 H (𝓣 .C) (𝓣 .Λ) code.function) (WpFn-mono 𝓤 H (W .laws) 𝓣 code.function)',
                 f'    (walks 𝓤 H A W at-mem routines 𝓣 {ks})', '',
                 f'pub {name}-spec : {{M : Type 1}} → stated.statement M', 'unfolding code.routine tablesOf', f'{name}-spec 𝓤 H 𝓜 𝓖 𝓡 =',
                 '    entered 𝓤 H (tripleOf 𝓤 H (𝓖 .A) f.signature (f.spec 𝓤 H (𝓖 .A) (𝓜 .mem) (𝓡 .run)))',
                 f'    (tables 𝓤 H 𝓜 𝓡 code.env .C) (tables 𝓤 H 𝓜 𝓡 code.env .Λ) #{w.key} code.function (code.unfolded 𝓤 H 𝓜 𝓡)',
                 '    (meets 𝓤 H (𝓖 .A) (givenOf 𝓤 H 𝓜 𝓖) (𝓜 .mem) (𝓡 .run) (tablesOf 𝓤 H 𝓜 (tables 𝓤 H 𝓜 𝓡 code.env))'] + met
        return lines[:-1] + [lines[-1] + ')']
