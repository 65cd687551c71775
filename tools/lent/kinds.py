"""How a proof speaks of a type: its denotation, its row, its machine type, its machine value, and the laws of these."""
import pathlib
import re
from lent.sources import array_of, fields_of, home_of, starts_of


class Number:
    """A number of a width."""
    denot = 'ℕ'

    def __init__(self, width):
        self.width = f'w{width}'
        self.row = {8: 'u8', 32: 'u32', 64: 'usize'}[width]
        self.mir = f'(tyInt {self.width})'
        self.vals, self.tells, self.makes = (f'(uint-{x} {self.width})' for x in ('vals', 'tells', 'makes 𝓤 H A W'))
        self.lawful = f'uint-lawful 𝓤 H A W {self.width}'
        word = {8: 'u8', 32: 'u32', 64: 'u64'}[width]
        self.field, self.field_laws = f'{word}-field', f'LL.{word}-laws'

    def val(self, x):
        return f'(vint {self.width} {x})'


class Truth:
    """A bool."""
    denot, row, mir, vals, tells, makes = 'Bool', 'Boolean', 'tyBool', 'bool-vals', 'bool-tells', '(bool-makes 𝓤 H A W)'
    lawful = 'bool-lawful 𝓤 H A W'

    def val(self, x):
        return f'(vbool {x})'


class Struct:
    """A declared type."""

    def __init__(self, path):
        self.path = path
        self.crate, *inner, self.denot = path.split('::')
        self.module = '.'.join(inner + [self.denot])
        r, l = f'R{self.denot}', f'L{self.denot}'
        self.type, self.laws = f'{r}.the-type', f'{l}.the-laws'
        self.row, self.mir = f'{r}.the-row', f'{l}.mir'
        self.vals, self.tells = f'(LL.vals {self.type} {self.laws})', f'(LL.tells {self.type} {self.laws})'
        self.makes = f'(LL.makes {self.type} {l}.the-plain 𝓤 H A)'
        self.lawful = f'LL.lawful {self.type} {self.laws} 𝓤 H A W'
        self.field, self.field_laws = f'{r}.the-field', f'{l}.the-field-laws'
        self.copy = f'(LL.copy {self.type} {l}.the-copy 𝓤 H A W)'
        fields, _ = fields_of(self.denot, self.crate)
        self.names = [name for name, _ in fields]
        self.kinds = [kind for _, kind in fields]
        self.starts = starts_of(fields, self.crate)

    def val(self, x):
        return f'(LL.val {self.type} {self.laws} {x})'

    def part(self, k):
        """The type of the field k, and its length where it is an array."""
        array = array_of(self.kinds[k], self.crate)
        return (named(array[0], self.crate), array[1]) if array else (named(self.kinds[k], self.crate), None)

    def uses(self, own):
        declared, proofs = (f'Rattle·{self.crate}·{x}.{x}' if self.crate == own else f'Rattle·{self.crate}.{x}' for x in ('specs', 'proofs'))
        return [f'use {declared}.declared.{self.module}.{{{self.denot}}}', f'use {proofs}.{self.module} as R{self.denot}', f'use {proofs}.{self.module}.Laws as L{self.denot}']


class Slice:
    """A `&[u8]` or a `&mut [u8]`, at the lifetime of that number."""

    def __init__(self, lifetime, written):
        self.lifetime, self.written = lifetime, written


class Reference:
    """A `&S` or a `&mut S`, at the lifetime of that number."""

    def __init__(self, lifetime, changes, struct):
        self.lifetime, self.changes, self.struct = lifetime, changes, struct


def named(kind, crate):
    """The kind of a type that a source of the crate names."""
    if kind == 'bool':
        return Truth()
    widths = {'u8': 8, 'u32': 32, 'u64': 64, 'usize': 64}
    if kind in widths:
        return Number(widths[kind])
    home = home_of(kind, crate)
    for file in sorted(pathlib.Path('crates', home, 'src').glob('**/*.rt')):
        if re.search(rf'\bpub struct {kind}\b', file.read_text(encoding='utf-8')):
            inner = [] if file.stem == 'lib' else [file.stem]
            return Struct('::'.join([home] + inner + [kind]))
    raise SystemExit(f'{home} declares no {kind}')


def kind_of(term):
    """The kind of a machine type."""
    if term == 'tyBool':
        return Truth()
    if term[0] == 'tyInt':
        return Number(int(term[1]))
    if term[0] == 'tyNamed':
        return Struct(term[1][1])
    if term[0] == 'tyStruct':
        reference = term[2][1]
        return Slice(int(reference[1][1]), reference[2] == 'mut')
    if term[0] == 'tyRef':
        return Reference(int(term[1][1]), term[2] == 'mut', kind_of(term[3]))
    raise SystemExit(f'no kind for {term}')


def machine(term):
    """A machine type, as a proof writes it."""
    if term in ('tyBool', 'tyPtr'):
        return term
    if term[0] == 'tyInt':
        return f'(tyInt w{term[1]})'
    if term[0] == 'tyNamed':
        return kind_of(term).mir
    if term[0] == 'tyStruct':
        return f'(sliceTy {machine(term[2][1])})'
    if term[0] == 'tyRef':
        at = 'erased' if term[1] == 'erased' else f'(named {term[1][1]})'
        to = f'(pointee ({kind_of(term[3]).row} .written))' if term[3][0] == 'tyNamed' else machine(term[3])
        return f'(tyRef {at} {term[2]} {to})'
    raise SystemExit(f'no machine type for {term}')
