"""A loop that counts up to a parameter: what is held where i turns are made, a turn, and the way out."""
import re
from lent.held import Held, Value, closed, one_line, pointer
from lent.kinds import Number
from lent.mir import statements
from lent.sources import unfoldable


class Loop:
    """`while t < many { .. t += 1; }`. Of what the turns change, the contract says what it is after many turns; so it says what it is after i."""

    def __init__(self, walk, st):
        self.walk = walk
        self.test, _, *self.body = statements(st.turn)
        self.count, self.many = self.test.left, walk.local[self.test.right].term
        bound = re.fullmatch(rf'{self.many} ≤ (\d+)', walk.contract.requires or '')
        if not bound:
            raise SystemExit(f'{walk.contract.path} does not require {self.many} ≤ a number')
        self.limit = bound.group(1)
        stores = [x for x in self.body if x.what == 'store']
        dests = {x.dest for x in self.body if x.what in ('call', 'read', 'copy')} | {x.base for x in stores}
        self.before = dict(walk.local)
        self.changed = [i for i in sorted(dests) if i in walk.local and i not in (1, self.count)]
        self.stores = any(x.base == 1 for x in stores)
        self.names = list(walk.held.names)
        self.facts = ['is-i'] * bool(self.changed) + ['was-i'] * self.stores

    # ---- what stands where i turns are made

    def told(self, i):
        """What stands in the changed local, and what the state is."""
        w = self.walk
        given = [i if name == self.many else name for name in w.given]
        return f'({w.contract.result(given)})', f'({w.contract.last(0, given)})' if self.stores else w.cur

    def stand(self, i, facts):
        w = self.walk
        told, left = self.told(i)
        w.held, w.local = Held(self.names), dict(self.before)
        for local in self.changed:
            w.local[local] = Value(told, w.local[local].kind, facts[0])
        w.local[self.count] = Value(i, Number(64), None)
        if self.stores:
            w.cur, w.was = left, facts[-1]

    def fact_types(self, i):
        told, left = self.told(i)
        kinds = [self.before[x].kind for x in self.changed]
        return [f'Is {k.row} {told} ({k.val(told)} ∷ [])' for k in kinds] + [f'Sound {left}'] * self.stores

    def packed(self, facts):
        return f'({", ".join(facts)})' if len(facts) > 1 else facts[0] if facts else 'tt'

    def turns_at(self, i, left, known, facts):
        return f'(record {{ done = {i}; left = {left}; sum = {known}; fine = {self.packed(facts)} }})'

    def same(self, name, value, told):
        """That what stands there is what the contract says, by the law that is named for it, or as the definition unfolds."""
        w = self.walk
        law = f'{w.law}-{name}'
        found = w.find_law(law)
        unfolds = [n for n in re.findall(r"[\w′-]+", ' '.join(self.told('i'))) if n in w.cited and unfoldable(w.cited[n], n)]
        w.definitions += [f'{name} : {w.bound()} → {w.inner(value)} ≡ {w.inner(told)}', f'unfolding {" ".join(dict.fromkeys(w.defined_names + unfolds))} iter', f'{name} {w.args(True)} = ' + (f'{law} {w.args(True)}' if found else 'refl'), '']
        return f'({name} {w.args()})'

    def becomes(self, when, i):
        """What the turns change is rewritten to what the contract says after i of them. Answers the facts of it."""
        w, (told, left), facts = self.walk, self.told(i), []
        for local in self.changed:
            value = w.local[local]
            same = self.same(f'told-{when}', value.term, told)
            w.held.rewrite(f'l{local}', f'(λ (z : {value.kind.denot}). ‵ (fat fullShare {w.types[local]} l{local} zero {value.kind.val("z")}))', same)
            facts.append(f'(subst (λ (z : {value.kind.denot}). Is {value.kind.row} z ({value.kind.val("z")} ∷ [])) {same} {value.fact})')
        if self.stores:
            same = self.same(f'left-{when}', w.cur, left)
            w.held.rewrite('cell', f'(λ (z : {w.state.denot}). ‵ (cellAt fullShare ({w.state.row} .mir) ({w.state.vals} z) b o))', same)
            facts.append(f'(subst Sound {same} {w.was})')
        return facts

    # ---- the lemmas

    def lines(self, name):
        """The loop, and the walk stands where all turns are made."""
        w, known, number = self.walk, list(self.walk.known), self.walk.number
        context, cur, was = w.context(), w.cur, w.was
        w.held = Held(self.names)
        facts = self.becomes('first', 'zero')
        given = ' '.join(n for n, _ in known)
        w.held.say(f'first ! $ blocks ! $ loops ! 𝓣 Fewer falls (Inv {given}) (turns {given}) {self.turns_at("zero", self.many, f"zero-add {self.many}", facts)}')
        entry = w.lemma(name, known, context, f'code-mir.t-{number}', w.held.lines)
        w.loop = self
        inner = self.invariant(known) + self.turn() + self.way_out(known, number)
        w.loop, w.number = None, number
        names = [f'is-{number}'] * bool(self.changed) + [f'was-{number}'] * self.stores
        w.cur, w.was = cur, was
        self.stand(self.many, names)
        w.local[self.count].fact = f'is-{self.many}'
        w.known, w.learned = known + list(zip(names, self.fact_types(self.many))), []
        return inner + entry

    def invariant(self, known):
        w, number = self.walk, self.walk.number
        self.stand('i', self.facts)
        types = self.fact_types('i')
        sound = ' × '.join(f'({t})' for t in types) if types else 'Unit {0}'
        return ['    module _ ' + ''.join(f'({n} : {k}) ' for n, k in known) + 'where',
                '      -- when the loop is left, the rest of the body runs', '      abbrev Left : Out → SProp 𝓤',
                f'      Left = afterBlock 𝓤 H (afterSeq 𝓤 H (Wp 𝓤 H (𝓣 .C) (𝓣 .Λ) En code-mir.t-{number + 1} (atReturn 𝓤 H En Post)) (atReturn 𝓤 H En Post))', '',
                '      -- what is held where i turns are made', '      abbrev Held-at : ℕ → List (Item 𝓤)', f'      Held-at i = {w.context()}', '',
                '      abbrev Turns : Type 0', f'      Turns = Count {self.many} (λ i. {sound})', '',
                '      abbrev Inv : Turns → List (Item 𝓤)', '      Inv x = Held-at (x .done)', '']

    def bound(self):
        return ' '.join(f'({n} : {t})' for n, t in zip(self.facts, self.fact_types('i')))

    def tests(self, law, known):
        w, test = self.walk, self.test.dest
        w.assign(test, f'bin ! {w.load(self.count)} {w.load(self.test.right)} tt', pointer('_'), '(tt, tt)')
        w.held.rewrite(f'l{test}', f'(λ (t : Bool). ‵ (fat fullShare tyBool l{test} zero (vbool t)))', f'({law} {self.many} i {known})')

    def turn(self):
        """A turn that is made: a lemma for each statement, the last first."""
        w, many = self.walk, self.many
        head = [f'      module _ (i u : ℕ) (e : i + suc u ≡ {many}) {self.bound()} where', '        abbrev Turn : Code → List (Item 𝓤) → Type 1',
                f'        Turn code Γ = Sq W Γ (runs (𝓣 .C) (𝓣 .Λ) En code (anyQ (afterTurn 𝓤 H (Below 𝓤 H A Fewer Inv {self.turns_at("i", "suc u", "e", self.facts)}) Left)))', '',
                f'        below : i < {self.limit}', f'        below = lt-of-lt-of-le (goes-on {many} i u e) req', '',
                '        small : i < 2 ^ 64', f'        small = lt-of-lt-of-le (goes-on {many} i u e) (le-of-lt (is-{many} .1))', '',
                '        next-fits : i + 1 < 2 ^ 64', f'        next-fits = fits-next {many} i u e (is-{many} .1)', '']
        w.known, w.learned, w.number = [], [], 1
        self.stand('i', self.facts)
        w.local[self.count].fact = '(refl, small)'
        context, found = w.context(), []
        self.tests('test-on', 'u e')
        w.held.say(f'stays ! {w.load(self.test.dest)} $')
        w.forget([self.test.dest])
        w.held.say('in-turn-3')
        found.append(self.lemma('in-turn-1', [], context, 'code-mir.turn-1'))
        w.number = 3
        for st in self.body:
            name, known, context, code = f'in-turn-{w.number}', list(w.known), w.context(), f'(after {w.number - 1} code-mir.turn-1)'
            w.held.lines = []
            if st.what == 'count':
                self.ends()
            else:
                w.do(st)
                w.number += st.size
                w.held.say(w.next_lemma(f'in-turn-{w.number}'))
            found.append(self.lemma(name, known, context, code))
            w.settle()
        return head + [line for lemma in reversed(found) for line in lemma]

    def lemma(self, name, known, context, code):
        facts = ' '.join(f'({n} : {k})' for n, k in known)
        body = ['            ' + x for x in one_line(self.walk.held.lines)]
        return [f'        {name} : {facts + " → " if facts else ""}Turn {code} ({context})', '        unfolding afterTurn'] + closed([f'        {name} {" ".join(n for n, _ in known)} ='] + body) + ['']

    def ends(self):
        """The count goes up, and what stands there is what the contract says after one turn more."""
        w, h, count = self.walk, self.walk.held, self.count
        h.say(f'assigns-last ! (bin ! {w.load(count)} (lit ! tt) (record {{ fits = next-fits }})) (from ! (stop !)) (store ! {h.at(f"l{count}")} refl (tt, record {{ fits = next-fits }})) $')
        w.forget([i for i in w.local if i not in self.before])
        h.rewrite(f'l{count}', f'(λ (j : ℕ). ‵ (fat fullShare (tyInt w64) l{count} zero (vint w64 j)))', '(one-more i)')
        facts = self.becomes('next', '(suc i)')
        h.move(*self.names)
        h.say(f'again ! Fewer Inv {self.turns_at("i", "suc u", "e", self.facts)} {self.turns_at("(suc i)", "u", f"still {self.many} i u e", facts)} (lt-suc-self u)')

    def way_out(self, known, number):
        """The turn that leaves; and all turns."""
        w, many, facts = self.walk, self.many, ' '.join(self.facts)
        w.number, w.known, w.learned = number, list(known), []
        self.stand('i', self.facts)
        h = w.held
        self.tests('test-off', 'e')
        h.say(f'leaves-loop ! {w.load(self.test.dest)} $ exec ! (𝓣 .C) (𝓣 .Λ) En code-mir.t-{number + 1} (atRet En Post) $')
        w.forget([self.test.dest])
        same, (told, left) = '(sym (add-zero i) ∙ e)', self.told('j')
        h.rewrite(f'l{self.count}', f'(λ (j : ℕ). ‵ (fat fullShare (tyInt w64) l{self.count} zero (vint w64 j)))', same)
        for local in self.changed:
            h.rewrite(f'l{local}', f'(λ (j : ℕ). ‵ (fat fullShare {w.types[local]} l{local} zero {w.local[local].kind.val(told)}))', same)
        if self.stores:
            h.rewrite('cell', f'(λ (j : ℕ). ‵ (cellAt fullShare ({w.state.row} .mir) ({w.state.vals} {left}) b o))', same)
        passed = [f'(subst (λ (j : ℕ). {t}) {same} {n})' for n, t in zip(self.facts, self.fact_types('j'))]
        h.say(' '.join([f'step-{number + 1}'] + [n for n, _ in known] + passed))
        left_at = lambda x: f'(anyQ (afterTurn 𝓤 H (Below 𝓤 H A Fewer Inv {x}) Left))'
        each = {0: [], 1: ['(x .fine)'], 2: ['(x .fine .0)', '(x .fine .1)']}[len(self.facts)]
        return [f'      turn-at : (i u : ℕ) (e : i + u ≡ {many}) {self.bound()} → Sq W (Held-at i) (runs (𝓣 .C) (𝓣 .Λ) En code-mir.turn-1 {left_at(self.turns_at("i", "u", "e", self.facts))})', '      unfolding afterTurn',
                *closed([f'      turn-at i zero e {facts} ='] + ['          ' + x for x in one_line(h.lines)]), f'      turn-at i (suc u) e {facts} = in-turn-1 i u e {facts}', '',
                f'      turns : (x : Turns) → Sq W (Inv x) (runs (𝓣 .C) (𝓣 .Λ) En code-mir.turn-1 {left_at("x")})', f'      turns x = turn-at (x .done) (x .left) (x .sum) {" ".join(each)}', '']
