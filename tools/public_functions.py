"""The public functions of the repository's libraries: what another crate or a host can call.

A function counts where it is `pub` and every module on the way to it is `pub mod`; so does each function of an `impl`
of a trait of the repository, whose clauses are the trait's, and each conversion, `impl From<A> for B`, whose clause is
its `from_gives`, whatever module it stands in. For each: crate, path below the crate, the text of its `ensures` clauses, the trait that binds its type
parameter if it has one, and whether it is exported to C."""
import pathlib
import re
from dataclasses import dataclass


@dataclass
class Function:
    crate: str
    path: str
    params: list
    answer: str
    ensures: list
    exported: bool
    body: str
    bound: str
    uses: list
    imports: dict

    @property
    def name(self):
        """The name of its theorem: `rules·cluster·bad-number`."""
        return '·'.join([self.crate] + self.path.split('::')).replace('_', '-')

    @property
    def module(self):
        """The folder of its contract below `Rattle·CRATE.proofs`: `cluster.bad_number`."""
        return self.path.replace('::', '.')


def without_comments(text):
    return re.sub(r'//[^\n]*', '', text)


def block(text, start):
    """The text of the braces that open at `start`, and the place behind them."""
    depth, at = 0, start
    while True:
        depth += (text[at] == '{') - (text[at] == '}')
        at += 1
        if depth == 0:
            return text[start + 1:at - 1], at


def parameters(text, at):
    """The names and types in the parentheses that open at or after `at`, and the place behind them."""
    start = at = text.index('(', at)
    depth, parts, last = 0, [], start + 1
    while True:
        depth += (text[at] in '([<') - (text[at] in ')]>')
        if (text[at] == ',' and depth == 1) or depth == 0:
            parts.append(' '.join(text[last:at].split()))
            last = at + 1
        at += 1
        if depth == 0:
            break
    named = [(p.removeprefix('&').removeprefix('mut ') + ': ' + p.replace('self', 'Self')) if re.fullmatch(r'(&(mut )?)?self', p) else p for p in parts]
    return [tuple(x.strip() for x in p.split(':', 1)) for p in named if ':' in p], at


def type_name(text):
    """The name that the prover gives a type: `U32`, `Set`, `Tuple2MaybeWordMaybeVote`, `ResultU32Refusal`."""
    parts = re.findall(r'\w+', text)
    return (f'Tuple{len(parts)}' if text.startswith('(') else '') + ''.join(part[0].upper() + part[1:] for part in parts)


def converted(body):
    """What a conversion gives, as a clause on its result, or none where `from_gives` is no equation."""
    gives = re.search(r'ghost from_gives = \{ λ \w+ (\w+)\. (\w+) ≡ (.*?) \};', ' '.join(body.split()))
    return [f'result ≡ {gives.group(3)}'] if gives and gives.group(1) == gives.group(2) else []


def trait_clauses(text):
    """The ensures clauses of each function of each public trait of one module's text."""
    found = {}
    for m in re.finditer(r'\bpub\s+trait\s+(\w+)[^{]*\{', text):
        body, _ = block(text, m.end() - 1)
        found[m.group(1)] = {name: ensures for name, ensures in signatures(body)}
    return found


def contract(text, at, ends):
    """The ensures clauses from `at` to the next of the characters `ends`, and its place."""
    ensures = []
    while at < len(text) and text[at] not in ends:
        clause = re.match(r'(requires|ensures|ghost)(\s+\w+)?\s*\{', text[at:])
        if clause:
            inner, after = block(text, at + clause.end() - 1)
            if clause.group(1) == 'ensures':
                ensures.append(' '.join(inner.split()))
            at = after
        else:
            at += 1
    return ensures, at


def signatures(text):
    """The functions that a trait declares: their names and ensures clauses."""
    for m in re.finditer(r'\bfn\s+(\w+)', text):
        _, at = parameters(text, m.end())
        yield m.group(1), contract(text, at, ';')[0]


def header(text, at):
    """Of an `impl` that begins at `at`: its trait or none, its type, and the place of its brace."""
    end = text.index('{', at)
    words = ' '.join(re.sub(r'^impl\s*(<[^{]*?>(?=\s))?', '', text[at:end]).split())
    of, _, to = words.rpartition(' for ')
    return re.sub(r'^(\w+::)+', '', of), to, end


def functions_of(text, prefix, homes, traits, inherited=None, private=False):
    """Each public function of one module's text: path, parameters, type of the answer, ensures clauses, exported or not, body, bound.
    Of a private module those alone that others reach by a type: an `impl` of a trait that is not the module's own."""
    at = 0
    pattern = re.compile(r'\bimpl\b(?=\s*<|\s+\w|\s*\()|\b(?:pub\s+)?trait\s+\w+[^{]*\{|\bpub\s+(extern "C"\s+)?fn\s+(\w+)(?:<\w+: (\w+)>)?|\bfn\s+(\w+)')
    while True:
        m = pattern.search(text, at)
        if not m:
            return
        if m.group() == 'impl':
            of, to, brace = header(text, m.start())
            body, at = block(text, brace)
            if of.startswith('From<'):
                yield from functions_of(body, prefix + [type_name(to) + type_name(of)], homes, traits, {'from': converted(body)})
            elif of in traits:
                yield from functions_of(body, prefix + [type_name(to) + of], homes, traits, traits[of])
            elif not of and not private:
                yield from functions_of(body, homes.get(to, prefix) + [to], homes, traits)
            elif of and not re.search(rf'\btrait {re.escape(of)}\b', text):
                # a trait that is known neither here nor in its own module: nothing is said of its functions
                yield '::'.join(prefix + [type_name(to) + type_name(of)]), [], '', [], False, body, ''
            continue
        if re.match(r'(pub\s+)?trait\b', m.group()):
            _, at = block(text, m.end() - 1)
            continue
        params, at = parameters(text, m.end())
        arrow = re.match(r'\s*->\s*([^\s{]+)', text[at:])
        ensures, at = contract(text, at, '{')
        body, at = block(text, at)
        name = (m.group(4) if inherited else None) or (None if private else m.group(2))
        if name:
            yield '::'.join(prefix + [name]), params, arrow.group(1) if arrow else '', inherited[name] if inherited else ensures, bool(m.group(1)), body, m.group(3) or ''


def modules(folder, text, prefix, private=False):
    """The modules of a crate: their texts and paths, and whether one on the way is private."""
    yield prefix, text, private
    for public, name in re.findall(r'\b(pub\s+)?mod\s+(\w+)\s*;', text):
        below = without_comments((folder / f'{name}.rt').read_text(encoding='utf-8'))
        yield from modules(folder / name, below, prefix + [name], private or not public)


def public_functions(root='.', roots=('lib',)):
    """Those of the libraries, or with `main` among the roots of the programs too."""
    crates = pathlib.Path(root) / 'crates'
    found = []
    traits = {}
    for source in sorted(crates.glob('*/src/**/*.rt')):
        traits |= trait_clauses(without_comments(source.read_text(encoding='utf-8')))
    for lib in sorted(p for name in roots for p in crates.glob(f'*/src/{name}.rt')):
        crate = lib.parent.parent.name
        text = without_comments(lib.read_text(encoding='utf-8'))
        below = list(modules(lib.parent, text, []))
        # where each type is declared, which is where the prover has the functions of its `impl`
        homes = {name: prefix for prefix, body, _ in below for name in re.findall(r'\bpub (?:struct|enum) (\w+)', body)}
        for prefix, body, private in below:
            uses = re.findall(r'ghost use ([^;]+);', body)
            imports = {name.strip(): owner for owner, names in re.findall(r'(?m)^use (\w+)::(?:\w+::)*(\w+|\{[^}]*\});', body) for name in names.strip('{}').split(',')}
            for found_one in functions_of(body, prefix, homes, traits, private=private):
                found.append(Function(crate, *found_one, uses, imports))
    return found


if __name__ == '__main__':
    for f in public_functions():
        print(f.crate, f.path, f.params, f.answer, 'exported' if f.exported else '', '|', ' & '.join(f.ensures))
