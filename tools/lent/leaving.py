"""The ways out of a function: a branch that returns, and the end."""
import copy
import re
from lent.held import Held, one_line
from lent.mir import statements
from lent.naming import asks_sound
from lent.sources import unfoldable


class Leaving:
    """The part of a walk that leaves the function."""

    def branch(self, st):
        """A test, and the way that returns; the other way goes on."""
        h, test = self.held, self.local[st.test]
        h.say(f'first ! $ branches ! {self.load(st.test)}')
        other = copy.copy(self)
        other.held, other.local, other.learned, other.slices = Held(h.names), {k: copy.copy(v) for k, v in self.local.items()}, list(self.learned), {k: copy.copy(v) for k, v in self.slices.items()}
        way = self.tellers[test.term]
        other.tests = self.tests + [(way, f'(is-true {test.term} h)', 'true', test.term)]
        for j, inner in enumerate(statements(st.taken)):
            other.arm = f'-{j + 1}'
            if inner.what == 'return':
                other.leave(True, way)
            else:
                other.do(inner)
        h.lines += ['(λ h.'] + one_line(other.held.lines)
        opened = '\n'.join(x for x in h.lines[1:] if not x.startswith('--'))
        h.lines[-1] += ')' * (opened.count('(') - opened.count(')'))
        self.learn(f'test-{self.number}', f'{test.term} ≡ false', f'(is-false {test.term} h)')
        self.tests = self.tests + [(way, f'test-{self.number}', 'false', test.term)]
        h.say(f'(λ h. skips ! $ exec ! (𝓣 .C) (𝓣 .Λ) En code-mir.t-{self.number + 1} (atRet En Post) $ {self.next_lemma(f"step-{self.number + 1}")})')

    def leave(self, within, way=None):
        """The borrow is closed, the result returned, every local freed, and the contract met."""
        h = self.held
        if self.changes:
            r = self.state.row
            h.move('cell')
            h.say(f'owned ! {r} (Is {r}) {self.state.makes} {self.cur} _ {self.was} $')
            h.names.insert(0, 'own')
            h.move('cell', 'own', 'obor', 'obs', 'auth')
            h.say(f'closes ! tt {r} {self.cur} ({self.state.vals} {self.cur}) b o $')
            h.replace(5, 'obs-left', 'bor', 'tok')
        result = self.local[0]
        h.say(f'{"returns-within ! Post refl" if within else "returns !"} (look ! {h.at("l0")} refl) $')
        self.forget(list(self.local))
        for i in range(len(self.types)):
            h.move(f'l{i}', f'd{i}')
            h.say('free1 ! $')
            h.replace(2)
        h.say('free0 ! $')
        h.say('nothing ! $')
        h.names.insert(0, 'tokens')
        for p in reversed(self.slices.values()):
            h.join(f'tok-{p.lifetime}', 'tokens', 'tokens')
        written = [p for p in self.slices.values() if p.written]
        h.keep(*['obs-left', 'bor'] * self.changes, *['tok'] * self.lent, 'tokens', *[f'final-{p.lifetime}' for p in written])
        ends = [self.ending('told', result.term, self.contract.result(self.given), way)]
        if self.changes:
            ends.append(self.ending('left', self.cur, self.contract.last(0, self.given), way))
        for p in written:
            i = self.lent + [name for name, _ in self.params].index(p.name)
            ends.append(self.ending('written', p.last, self.contract.last(i, self.given), way))
        state = f'{self.cur} ' if self.changes else ''
        h.say(f'by ! (exits {state}{result.term} {result.machine} {"".join(p.last + " " for p in written)}{" ".join(ends)} {"".join(p.same + " " for p in written)}{result.fact})')

    def ending(self, what, value, contract, way):
        """That a value at the end is what the contract says, by the law that is named for it where there is one."""
        if value == contract:
            return 'refl'
        base = f'{self.law}-{what}'
        tests = self.tests if what == 'left' else [t for t in self.tests if self.find_law(f'{base}-{t[0]}')]
        law = f'{base}-{way}' if way and (what == 'left' or self.find_law(f'{base}-{way}')) else base
        lemma = f'{what}-end{"-" + way if way else ""}'
        found = self.find_law(law)
        was = found and asks_sound(found)
        told = self.asked_typed(found) if found else []
        asks = ['Sound s'] * self.lent + [kind for _, kind in told] + [f'{term} ≡ {b}' for _, _, b, term in tests]
        said = '' if found else ' '.join([contract] + self.definitions)
        unfolds = self.defined_names + sorted({n for n in re.findall(r"[\w′-]+", said) if n in self.cited and unfoldable(self.cited[n], n)})
        names = [f'is{i}' for i in range(len(told))] + [f't{i}' for i in range(len(tests))]
        self.definitions += [f'{lemma} : {self.bound()} → ' + ''.join(f'{self.inner(a)} → ' for a in asks) + f'{self.inner(value)} ≡ {self.inner(contract)}',
                             f'unfolding {" ".join(unfolds)}', f'{lemma} {self.args(True)} {"was " * self.lent}{" ".join(names)} = ' + (f'{law} {self.args(True)}{" was" if was else ""} {" ".join(names)}' if found else 'refl'), '']
        return f'({lemma} {self.args()} {"was " * self.lent}{" ".join([fact for fact, _ in told] + [known for _, known, _, _ in tests])})'
