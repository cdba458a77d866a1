"""The heap as its promises describe it: objects with fields and homes, stacks and depths. It knows nothing of words, pages or gates.

`Spaces` gives the reply that each call has where no page is wanting. `turns` tells, of a reply that was told, whether it is one of
those that a heap of so many pages may give.
"""
import re

CONTROL = (0, 0)
SLOTS, DEPTHS, FIELDS, OBJECT_WORDS, PAGE_WORDS = 64, 8, 253, 3, 256


def join(a, b):
    """The least space that outlives both."""
    if a == b:
        return a
    if a[0] == b[0] and a[0] != 0:
        return (a[0], min(a[1], b[1]))
    return CONTROL


class Spaces:
    """Objects with fields and homes, and what each thread has. A value is None, an int, or a tuple that names an object."""

    def __init__(self, threads):
        root = (0, 0)
        self.fields = {root: (None,) * 16}
        self.home = {root: CONTROL}
        self.stack = {t: (root,) for t in range(1, threads + 1)}
        self.depth = {t: 0 for t in range(1, threads + 1)}
        self.made = {t: 0 for t in range(1, threads + 1)}

    def copy(self):
        other = Spaces.__new__(Spaces)
        other.fields, other.home = dict(self.fields), dict(self.home)
        other.stack, other.depth, other.made = dict(self.stack), dict(self.depth), dict(self.made)
        return other

    def key(self):
        return (tuple(sorted(self.fields.items(), key=lambda e: e[0])), tuple(sorted(self.home.items())), tuple(self.stack.values()), tuple(self.depth.values()), tuple(self.made.values()))

    def inner(self, t):
        return (t, self.depth[t]) if self.depth[t] else CONTROL

    def reached(self, roots, within):
        found, todo = set(), [n for n in roots if within(n)]
        while todo:
            name = todo.pop()
            if name in found:
                continue
            found.add(name)
            todo += [v for v in self.fields[name] if isinstance(v, tuple) and within(v)]
        return found

    def words(self, within=lambda space: True):
        """The words of the objects in some spaces."""
        return sum(len(self.fields[n]) + OBJECT_WORDS for n, space in self.home.items() if within(space))

    def end(self, t, tight=False):
        region = self.inner(t)
        outer = (t, region[1] - 1) if region[1] > 1 else CONTROL
        inside = lambda n: self.home.get(n) == region
        sources = [(v, self.home[n]) for n, values in self.fields.items() if self.home[n] != region for v in values if isinstance(v, tuple) and inside(v)]
        sources += [(v, outer if u == t else CONTROL) for u, slots in self.stack.items() for v in slots if isinstance(v, tuple) and inside(v)]
        target = {}
        for name, space in sources:
            for reached in self.reached([name], inside):
                target[reached] = join(target[reached], space) if reached in target else space
        for name in [n for n in self.home if inside(n)]:
            if name in target:
                self.home[name] = CONTROL if tight else target[name]
            else:
                del self.home[name], self.fields[name]
        self.depth[t] -= 1
        return len(target)

    def collect(self):
        roots = [v for slots in self.stack.values() for v in slots if isinstance(v, tuple)]
        roots += [n for n, space in self.home.items() if space != CONTROL]
        kept = self.reached(roots, lambda n: n in self.fields)
        for name in [n for n, space in self.home.items() if space == CONTROL and n not in kept]:
            del self.home[name], self.fields[name]

    def call(self, t, word, numbers):
        """Makes a call and gives its reply. A census tells of pages, of which this knows nothing: its reply is None."""
        stack = self.stack[t]
        slot = lambda s: s < len(stack)
        full = len(stack) >= SLOTS

        def push(value):
            self.stack[t] = stack + (value,)
            return 'ok'

        if word in ('int', 'null'):
            return 'stack full' if full else push(numbers[0] if word == 'int' else None)
        if word == 'dup':
            return 'bad slot' if not slot(numbers[0]) else 'stack full' if full else push(stack[numbers[0]])
        if word == 'pop':
            if not stack:
                return 'stack empty'
            self.stack[t] = stack[:-1]
            return 'ok'
        if word == 'new':
            if numbers[0] > FIELDS:
                return 'too long'
            if full:
                return 'stack full'
            self.made[t] += 1
            name = (t, self.made[t])
            self.fields[name], self.home[name] = (None,) * numbers[0], self.inner(t)
            return push(name)
        if word in ('load', 'store'):
            if any(not slot(s) for s in (numbers[:1] if word == 'load' else [numbers[0], numbers[2]])):
                return 'bad slot'
            name = stack[numbers[0]]
            if not isinstance(name, tuple):
                return 'not a reference'
            if numbers[1] >= len(self.fields[name]):
                return 'bad field'
            if word == 'load':
                return 'stack full' if full else push(self.fields[name][numbers[1]])
            values = list(self.fields[name])
            values[numbers[1]] = stack[numbers[2]]
            self.fields[name] = tuple(values)
            return 'ok'
        if word == 'get':
            if not slot(numbers[0]):
                return 'bad slot'
            value = stack[numbers[0]]
            return 'null' if value is None else f'ref {len(self.fields[value])}' if isinstance(value, tuple) else f'int {value}'
        if word == 'same':
            return 'bad slot' if not all(map(slot, numbers)) else 'yes' if stack[numbers[0]] == stack[numbers[1]] else 'no'
        if word == 'begin':
            if self.depth[t] >= DEPTHS:
                return 'too deep'
            self.depth[t] += 1
            return 'ok'
        if word == 'end':
            return 'no epoch' if not self.depth[t] else f'ok moved {self.end(t)}'
        if word == 'collect':
            self.collect()
            return 'ok'
        return None

    def turns(self, pages, t, word, numbers, told, collected=False, packed=False):
        """Makes a call that was answered so on a heap of so many pages, and tells whether it may have been. The call made a
        collection of its own directly before where `collected` says so; `packed` tells that the last call was a `collect`."""
        spaces = 1 + sum(self.depth.values())
        half = PAGE_WORDS // 2
        if collected and not (word == 'new' and told in ('ok', 'out of heap') or word == 'end' and told.startswith('ok moved ')):
            return False
        if word == 'new' and told == 'out of heap':
            fits = numbers[0] <= FIELDS and len(self.stack[t]) < SLOTS
            return collected and fits and half * pages <= self.words() + half * spaces
        if word == 'end' and told.endswith(' tight'):
            if not (collected and self.depth[t]):
                return False
            region, before = self.inner(t), self.words()
            escaping = self.copy()
            moved = escaping.end(t, tight=True)
            more = escaping.words() - self.words(lambda space: space != region)
            self.__dict__ = escaping.__dict__
            return told == f'ok moved {moved} tight' and half * pages < before + more + PAGE_WORDS * spaces
        if word == 'census':
            found = re.fullmatch('pages free ([0-9]+) region ([0-9]+) control ([0-9]+)', told)
            return found is not None and self.counted(pages, spaces, packed, *map(int, found.groups()))
        return self.call(t, word, numbers) == told

    def counted(self, pages, spaces, packed, free, region, control):
        """Whether these may be the pages that are free, those of all regions and those of the control space."""
        in_control = self.words(lambda space: space == CONTROL)
        in_regions = self.words(lambda space: space != CONTROL)
        return (free + region + control == pages
                and in_control <= PAGE_WORDS * control and in_regions <= PAGE_WORDS * region
                and PAGE_WORDS * region <= 2 * in_regions + PAGE_WORDS * (spaces - 1)
                and (not packed or PAGE_WORDS * control <= 2 * in_control + PAGE_WORDS))


def explained(pages, threads, lines, replies):
    """Whether the calls, in their order, may be answered so. A call may have made a collection only where pages may be wanting."""
    states, claimed, last = [Spaces(threads)], 1, None
    for (t, word, numbers), told in zip(lines, replies):
        moved = re.match('ok moved ([0-9]+)', told)
        claimed += int(moved.group(1)) if moved else word == 'new' and told in ('ok', 'out of heap')
        after = {}
        for spaces in states:
            for collected in (False, True)[:1 + (claimed > pages and word in ('new', 'end'))]:
                other = spaces.copy()
                if collected:
                    other.collect()
                if other.turns(pages, t, word, numbers, told, collected, last == 'collect') and other.words() <= PAGE_WORDS * pages:
                    after[other.key()] = other
        states, last = list(after.values()), word
    return bool(states)
