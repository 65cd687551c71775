"""Reads and stores: of the lent state, of a field of it or of a field of a field, of an element of an array that is one, and of a field of such an element; and reads of an element of an array within such an element."""
from lent.held import Value, pointer
from lent.kinds import Number
from lent.mir import Literal
from lent.sources import nothing_of, path_to


class Part:
    """A field of a struct: its number, its kind, where it begins, and its length where it is an array."""

    def __init__(self, walk, struct, k):
        self.walk, self.struct, self.k = walk, struct, k
        self.name, self.start = struct.names[k], struct.starts[k]
        self.kind, self.many = struct.part(k)
        walk.note(self.kind)
        self.tag = f'{struct.denot}-{self.name}'
        self.scalar = not hasattr(self.kind, 'path')
        walk.part(self)

    def is_lemma(self):
        """That the field of a struct is what its kind says."""
        s, whole = self.struct, f'Is {self.struct.row} h ({self.struct.val("h")} ∷ [])'
        told = f'Are {self.kind.field} {self.kind.field_laws} {self.many} (h .{self.name})' if self.many else f'Is {self.kind.row} (h .{self.name}) ({self.kind.val(f"(h .{self.name})")} ∷ [])'
        return [f'{self.tag}-is : (h : {s.denot}) → {whole} → {told}', f'{self.tag}-is h was = LL.owed {s.type} {s.laws} h ({s.val("h")} ∷ []) was{path_to(self.k)}', '']

    def lies_lemma(self):
        return [f'{self.tag}-lies : Lies {self.struct.mir} {self.k} {self.kind.mir} {self.many} {self.start}', f'{self.tag}-lies = (refl, refl)', ''] if self.many else []

    def with_lemmas(self):
        """The struct with another value there, and that it is what its kind says."""
        s, k = self.struct, self.kind
        had = [f'had{path_to(j)}' for j in range(self.k)]
        spot, given, new = ('(i : ℕ) ', 'i ', f'set (h .{self.name}) i x') if self.many else ('', '', 'x')
        is_new = f'put-in {k.field} {k.field_laws} {self.many} (h .{self.name}) i x {k.val("x")} (had{path_to(self.k)}) is' if self.many else 'is'
        fields = '; '.join(f'{n} = {new}' if n == self.name else f'{n} = h .{n}' for n in s.names)
        rest = 'had' + ' .1' * (self.k + 1) if self.k + 1 < len(s.names) else 'tt'
        nested = '(' + ', ('.join(had + [is_new]) + f', {rest}' + ')' * (len(had) + 1)
        return [f'abbrev with-{self.tag} : (h : {s.denot}) {spot}(x : {k.denot}) → {s.denot}', f'with-{self.tag} h {given}x = record {{ {fields} }}', '',
                f'made-{self.tag} : (h : {s.denot}) {spot}(x : {k.denot}) → Is {s.row} h ({s.val("h")} ∷ []) → Is {k.row} x ({k.val("x")} ∷ []) → Is {s.row} (with-{self.tag} h {given}x) ({s.val(f"(with-{self.tag} h {given}x)")} ∷ [])',
                f'made-{self.tag} h {given}x was is =', f'    let had = LL.owed {s.type} {s.laws} h ({s.val("h")} ∷ []) was in', f'    LL.owes {s.type} {s.laws} (with-{self.tag} h {given}x) {nested}', '']


def find(part, of, behind=True):
    """How the cell of a field is found within that of its struct, which may lie behind a reference."""
    if part.many and not behind and not part.scalar:
        return f'(as-raw ! {{τ = tyArray {part.kind.mir} {part.many}}} (sub ! {part.k} {{τ = tyArray {part.kind.mir} {part.many}}} {{d = {part.start}}} ({part.tag}-lies .0) {of}))'
    if part.many:
        return f'(sub ! {part.k} {{τ = rawArray {part.kind.mir} {part.many}}} {{d = {part.start}}} ({part.tag}-lies .{int(behind)}) {of})'
    raw = part.kind.mir if part.scalar or not behind else f'rawTy {part.kind.mir}'
    return f'(sub ! {part.k} {{τ = {raw}}} {{d = {part.start}}} refl {of})'


def way(part, to='(stop !)'):
    return f'(fld ! {{τ = {part.kind.mir}}} {{d = {part.start}}} refl {to})'


class Spot:
    """The place that a read or a store is of: where it lies, and the term and the fact of what stands there."""

    def __init__(self, walk, st):
        self.walk, self.st = walk, st
        self.first = Spot(walk, st.first) if hasattr(st, 'first') else None
        self.of_state = self.first.of_state if self.first else st.base == 1
        self.entry = self.first.entry if self.first else 'cell' if self.of_state else f'l{st.base}'
        if self.first:
            self.struct, self.term, self.fact = self.first.field.kind, self.first.element(), self.first.element_is()
        elif self.of_state:
            self.struct, self.term, self.fact = walk.state, walk.cur, walk.was
        else:
            value = walk.local[st.base]
            self.struct, self.term, self.fact = value.kind, value.term, value.fact
        self.outer = []
        for k in st.fields[:-1]:
            part = Part(walk, self.struct, k)
            self.outer.append((part, self.struct, self.term, self.fact))
            self.struct, self.term, self.fact = part.kind, f'({self.term} .{part.name})', f'({part.tag}-is {self.term} {self.fact})'
        self.field = Part(walk, self.struct, st.fields[-1]) if st.fields else None
        self.inner = None
        if st.index is not None:
            self.nothing = walk.cite(*nothing_of(self.field.kind.denot, self.field.kind.crate)) if hasattr(self.field.kind, 'path') else '0'
            self.i = walk.local[st.index].term
            self.below = walk.shown(f'{self.i} < {self.field.many}', f'{walk.tellers.get(self.i, "index")}-below')
            self.inner = Part(walk, self.field.kind, st.inner[0]) if st.inner else None

    def way(self, to):
        """The place that a statement names: behind the reference, or within the local."""
        for part, *_ in reversed(self.outer):
            to = way(part, to)
        pointer_at = self.first.st.temps[2] if self.first else 1
        return f'(hop ! (look ! {self.walk.held.at(f"l{pointer_at}")} refl) {to})' if self.first or self.of_state else to

    def found(self):
        """How the cell of the field is found."""
        cell = self.first.in_element() if self.first else '(whole !)'
        for part in [part for part, *_ in self.outer] + [self.field]:
            cell = find(part, cell, bool(self.first) or self.of_state)
        return cell

    def reach(self):
        """The steps to where the element begins."""
        w, st, f = self.walk, self.st, self.field
        if self.first:
            self.first.reach()
        bytes_, array, item = st.temps
        word = f'(in-word {f.many} (size {f.kind.mir}) {self.i} tt {self.below})'
        w.assign(bytes_, f'bin ! {w.load(st.index)} (lit ! tt) {word}', pointer('_'), f'(tt, {word})')
        w.assign(array, f'addr ! (from ! {self.way(self.array_way())})', pointer('_'), '(tt, tt)')
        w.assign(item, f'bin ! {w.load(array)} {w.load(bytes_)} tt', pointer('_'), '(tt, tt)')

    def array_way(self):
        f = self.field
        return f'(fld ! {{τ = tyArray {f.kind.mir} {f.many}}} {{d = {f.start}}} ({f.tag}-lies .0) (stop !))'

    def leave(self):
        self.walk.forget(self.st.temps + (self.first.st.temps if self.first else ()))

    def elements(self):
        f = self.field
        return f'{f.kind.field} {f.kind.field_laws} {f.many} ({self.term} .{f.name}) {self.i}'

    def are(self):
        return f'({self.field.tag}-is {self.term} {self.fact})'

    def element(self):
        return f'(getD ({self.term} .{self.field.name}) {self.i} {self.nothing})'

    def element_is(self):
        f = self.field
        return f'(elem-is {f.kind.field} {f.kind.field_laws} {f.many} ({self.term} .{f.name}) {self.i} {self.nothing} {self.are()} {self.below})'

    def with_array(self):
        """The state or the struct with the machine value z in the place of its array."""
        struct, whole = self.struct, f'(with-field {self.struct.val(self.term)} {self.field.k} z)'
        for part, struct, term, _ in reversed(self.outer):
            whole = f'(with-field {struct.val(term)} {part.k} {whole})'
        return f'‵ (cellAt fullShare ({struct.row} .mir) ({whole} ∷ []) b o)' if self.of_state else f'‵ (fat fullShare {struct.mir} {self.entry} zero {whole})'

    def in_element(self):
        """How the cell of the element is found."""
        return f'(elem-part ! {self.elements()} {self.nothing} {self.field.kind.mir} {self.are()} {self.below} {self.found()})'


def read(walk, st):
    """A read, and the value that it gives."""
    h, spot = walk.held, Spot(walk, st)
    if spot.of_state:
        walk.opens_look()
    if not st.fields:
        value = Value(walk.cur, walk.state, walk.was)
        walk.assign(st.dest, f'of-opd ! (load ! (from ! (hop ! (look ! {h.at("l1")} refl) (stop !))) (look-raw ! {h.at("cell")} refl))', value)
    elif st.index is None:
        f = spot.field
        value = Value(f'({spot.term} .{f.name})', f.kind, f'({f.tag}-is {spot.term} {spot.fact})')
        walk.assign(st.dest, f'of-opd ! (load ! (from ! {spot.way(way(f))}) {looked(h.at(spot.entry), f, value, spot.found())})', value)
    else:
        spot.reach()
        item = f'look ! {h.at(f"l{st.temps[2]}")} refl'
        if spot.inner:
            f = spot.inner
            value = Value(f'({spot.element()} .{f.name})', f.kind, f'({f.tag}-is {spot.element()} {spot.element_is()})')
            walk.assign(st.dest, f'of-opd ! (load ! (from ! (hop ! ({item}) {way(f)})) {looked(h.at(spot.entry), f, value, find(f, spot.in_element()))})', value)
        else:
            value = Value(spot.element(), spot.field.kind, spot.element_is())
            walk.assign(st.dest, f'of-opd ! (load ! (from ! (hop ! ({item}) (stop !))) (look-elem ! {h.at(spot.entry)} {spot.elements()} {spot.nothing} {spot.are()} {spot.below} {spot.found()}))', value)
    if spot.of_state:
        walk.shuts_look()
    if st.index is not None:
        spot.leave()
    value.fact = walk.learn(f'is-{walk.tag()}', f'Is {value.kind.row} {value.term} ({value.machine} ∷ [])', value.fact)


def looked(entry, part, value, found):
    return f'(look-in ! {entry} {found})' if part.scalar else f'(look-field ! {entry} {value.machine} refl {found})'


def store(walk, st):
    """A store, and what the state, or the struct in a local, then is."""
    h, spot = walk.held, Spot(walk, st)
    literal = isinstance(st.source, Literal)
    x = Value(st.source.number, Number(st.source.width), '(refl, lit< tt)') if literal else walk.local[st.source]
    source = lambda: 'of-opd ! (lit ! tt)' if literal else f'of-opd ! {walk.load(st.source)}'
    f = spot.field
    if not st.fields:
        h.say(f'assigns ! ({source()}) (from ! {spot.way("(stop !)")}) (store-raw ! {h.at("cell")} refl {x.typed()}) $')
        new, fact = x.term, x.fact
    elif st.index is None:
        cell = spot.found() if f.scalar or not spot.of_state else f'(unraw ! {spot.found()})'
        h.say(f'assigns ! ({source()}) (from ! {spot.way(way(f))}) (store-in ! {h.at(spot.entry)} {cell} {x.typed()}) $')
        new, fact = f'(with-{f.tag} {spot.term} {x.term})', f'(made-{f.tag} {spot.term} {x.term} {spot.fact} {x.fact})'
    else:
        spot.reach()
        item = f'look ! {h.at(f"l{st.temps[2]}")} refl'
        y, is_y = x.term, x.fact
        if spot.inner:
            g, element = spot.inner, spot.element()
            walk.stored(g)
            y, is_y = f'(with-{g.tag} {element} {x.term})', f'(made-{g.tag} {element} {x.term} {spot.element_is()} {x.fact})'
            cell = find(g, spot.in_element())
            h.say(f'assigns ! ({source()}) (from ! (hop ! ({item}) {way(g)})) (store-part ! {h.at(spot.entry)} {f.kind.field} {f.kind.field_laws} ({spot.term} .{f.name}) {spot.i} {y} (λ (z : Val). with-field {f.kind.val(element)} {g.k} z) (λ (z : Val). {spot.with_array()}) {is_y} {cell if g.scalar else f"(unraw ! {cell})"} {x.typed()}) $')
        else:
            h.say(f'assigns ! ({source()}) (from ! (hop ! ({item}) (stop !))) (store-elem ! {h.at(spot.entry)} {spot.elements()} {y} {spot.are()} {spot.below} {is_y} {spot.found()} {x.typed()}) $')
        spot.leave()
        new, fact = f'(with-{f.tag} {spot.term} {spot.i} {y})', f'(made-{f.tag} {spot.term} {spot.i} {y} {spot.fact} {is_y})'
    if f:
        walk.stored(f)
    for part, _, term, was in reversed(spot.outer):
        walk.stored(part)
        new, fact = f'(with-{part.tag} {term} {new})', f'(made-{part.tag} {term} {new} {was} {fact})'
    if spot.of_state:
        walk.state_becomes(walk.tag(), new, new, 'refl', fact)
    else:
        walk.local_becomes(st.base, walk.tag(), new, fact)
