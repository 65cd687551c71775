"""What the sources say: the declared types and where their fields lie, the contracts, the definitions that these cite, and the laws of the proofs."""
import functools
import pathlib
import re
from public_functions import block, parameters, without_comments

BYTES = {'bool': 1, 'u8': 1, 'i8': 1, 'u16': 2, 'i16': 2, 'u32': 4, 'i32': 4, 'u64': 8, 'i64': 8, 'usize': 8, 'isize': 8}


def hyphens(path):
    return path.replace('::', '·').replace('_', '-')


def path_to(i):
    """The way to the component i of (x, (y, tt))."""
    return ' .1' * i + ' .0'


@functools.cache
def text_of(crate, module):
    return without_comments(pathlib.Path('crates', crate, 'src', f'{module or "lib"}.rt').read_text(encoding='utf-8'))


@functools.cache
def sources(crate):
    return ''.join(without_comments(p.read_text(encoding='utf-8')) for p in sorted(pathlib.Path('crates', crate, 'src').glob('**/*.rt')))


def home_of(name, crate):
    """The crate that declares the struct `name` as `crate` sees it."""
    if re.search(rf'\bpub struct {name}\b', sources(crate)):
        return crate
    used = re.search(rf'\buse (?!crate)(\w+)::(?:\w+::)*{name};', sources(crate))
    if not used:
        raise SystemExit(f'{crate} knows no struct {name}')
    return used.group(1)


# ---- declared types

@functools.cache
def fields_of(name, crate):
    """The fields of a declared struct and their types, and the crate that declares it."""
    home = home_of(name, crate)
    declared = re.search(rf'\bpub struct {name} \{{(.*?)\n\}}', sources(home), re.S).group(1)
    return re.findall(r'\bpub (\w+): ([^,]+),', declared), home


def array_of(kind, crate):
    """The element's type and the length of an array's type, or None."""
    found = re.match(r'\[(.+); (?:\w+::)*(\w+)\]$', kind)
    if not found:
        return None
    length = found.group(2)
    return found.group(1), int(length if length.isdigit() else re.search(rf'\bconst {length}: usize = (\d+);', sources(crate)).group(1))


def layout(kind, crate):
    """The size and the alignment of a type, as C has them."""
    if kind in BYTES:
        return BYTES[kind], BYTES[kind]
    if array_of(kind, crate):
        element, length = array_of(kind, crate)
        size, align = layout(element, crate)
        return length * size, align
    fields, home = fields_of(kind, crate)
    return starts_of(fields, home)[-1], max(layout(t, home)[1] for _, t in fields)


def starts_of(fields, crate):
    """Where each field of a struct begins, and where the struct ends."""
    starts, end, widest = [], 0, 1
    for _, kind in fields:
        size, align = layout(kind, crate)
        starts.append(-(-end // align) * align)
        end, widest = starts[-1] + size, max(widest, align)
    return starts + [-(-end // widest) * widest]


# ---- contracts

class Contract:
    """A function as its source declares it: its parameters, its `requires`, the clauses of its `ensures`, and what these cite."""

    def __init__(self, path):
        self.path = path
        self.crate, *inner, self.name = path.split('::')
        self.module = '/'.join(inner)
        text = text_of(self.crate, self.module)
        found = re.search(rf'\bfn {self.name}\b', text)
        self.params, at = parameters(text, found.end())
        self.requires, ensures = None, 'λ r. ⌜ r ≡ r ⌝'
        while text[at] != '{':
            clause = re.match(r'(requires|ensures)\s*\{', text[at:])
            if clause:
                inner, at = block(text, at + clause.end() - 1)
                inner = ' '.join(inner.split())
                if clause.group(1) == 'ensures':
                    ensures = inner
                else:
                    self.requires = re.match(r'⌜ (.*) ⌝$', inner).group(1)
            else:
                at += 1
        self.facts = {left: right for left, right in (fact.split(' ≡ ', 1) for fact in clauses_of(ensures))}
        self.cited = {name.strip(): module for module, names in re.findall(r'ghost use (\S+?)\.\{(.*?)\};', text, re.S) for name in names.split(',')}

    def term(self, text, given):
        """A text of the contract, where its parameters are `given`."""
        for i, (name, _) in enumerate(self.params):
            text = re.sub(rf'\(now \({name} \.entry\)\)|now \({name} \.entry\)|(?<![\w.·-]){name}(?![\w·-])', f'<{i}>', text)
        for i, x in enumerate(given):
            text = text.replace(f'<{i}>', x)
        return text

    def result(self, given):
        return self.term(self.facts['r'], given)

    def last(self, i, given):
        """What stands at exit in the parameter i."""
        return self.term(self.facts[f'now ({self.params[i][0]} .exit)'], given)


def clauses_of(ensures):
    """The facts of a contract, without the parentheses around each."""
    said = re.match(r'λ r\. ⌜ (.*) ⌝$', ensures).group(1)
    parts, depth, last = [], 0, 0
    for at, c in enumerate(said):
        depth += (c == '(') - (c == ')')
        if c == '×' and depth == 0:
            parts.append(said[last:at].strip())
            last = at + 1
    parts.append(said[last:].strip())
    return parts if len(parts) == 1 else [p[1:-1] for p in parts]


def seen_from(module, own):
    """A module of definitions or proofs, as the proofs of the crate `own` name it."""
    found = re.match(r'Rattle·(\w+)(?:·(specs|proofs)\.(?:specs|proofs)|\.(specs|proofs))\.(.*)', module)
    if not found:
        return module
    crate, part, rest = found.group(1), found.group(2) or found.group(3), found.group(4)
    return f'Rattle·{crate}·{part}.{part}.{rest}' if crate == own else f'Rattle·{crate}.{part}.{rest}'


def unfoldable(module, name):
    """Whether a definition is one that a proof must ask to unfold."""
    found = re.match(r'Rattle·(\w+)(?:·specs)?\.specs\.(\w+)', module)
    return bool(found) and f'unfoldable pub {name} :' in pathlib.Path('crates', found.group(1), 'specs', f'{found.group(2)}.antt').read_text(encoding='utf-8')


# ---- laws

@functools.cache
def laws(crate):
    """Each law of a crate's proofs that a walk may ask for: the module that has it, and its type."""
    found = {}
    for file in sorted(pathlib.Path('crates', crate, 'proofs').glob('*.antt')):
        for name, kind in re.findall(r'(?m)^ *pub (\S+) :(.*(?:\n    .*)*)', file.read_text(encoding='utf-8')):
            found[name] = (f'Rattle·{crate}·proofs.proofs.{file.stem}', kind)
    return found


def nothing_of(struct, crate):
    """The definition of the element that stands where a list has none: `noRecord` of a `Record`, or else the one value of the type that is named."""
    for name in (f'no{struct}', r'\w+'):
        for file in sorted(pathlib.Path('crates', crate, 'specs').glob('*.antt')):
            found = re.search(rf'(?m)^(?:abbrev|unfoldable) pub ({name}) : {struct}$', file.read_text(encoding='utf-8'))
            if found:
                return f'Rattle·{crate}.specs.{file.stem}', found.group(1)
    raise SystemExit(f'the specs of {crate} name no {struct}')
