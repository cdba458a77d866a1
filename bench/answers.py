"""What the program has to answer to words and bytes, read from `docs/FORMAT.md` and written without a look at its code."""
import collections
import re

from model import CONTROL, FIELDS, PAGE_WORDS, Spaces, explained

LIMIT, LONGEST, PAGES, THREADS, ROUNDS = 16_777_216, 1024, 4096, 8, 100_000
OPTIONS = {b'--workers': THREADS, b'--task': LIMIT, b'--pages': PAGES}
FEED = b'--feed'
NUMBERS = {'int': 1, 'null': 0, 'dup': 1, 'pop': 0, 'new': 1, 'load': 2, 'store': 3,
           'get': 1, 'same': 2, 'begin': 0, 'end': 0, 'collect': 0, 'census': 0}
REFUSALS = ['bad slot', 'not a reference', 'bad field', 'stack full', 'stack empty', 'too deep', 'no epoch', 'too long', 'names spent']
REPLY = re.compile('ok|null|yes|no|out of heap|' + '|'.join(REFUSALS) +
                   '|int ([0-9]+)|ref ([0-9]+)|ok moved ([0-9]+)(?: tight)?|pages free ([0-9]+) region ([0-9]+) control ([0-9]+)')
REPLY_BITS = [64, 16, 64, 32, 32, 32]


def number(word, least, most):
    """The number that a word is, if it is one in this range."""
    plain = word.isdigit() and len(word) <= 20 and (word == b'0' or not word.startswith(b'0'))
    return int(word) if plain and least <= int(word) <= most else None


def lines_of(text):
    """The lines, without their ends."""
    lines = text.split(b'\n')
    last = lines.pop()
    return [line[:-1] if line.endswith(b'\r') else line for line in lines] + ([last] if last or not text else [])


def words_of(line):
    return [word for word in line.replace(b'\t', b' ').split(b' ') if word]


def form(words, built, several):
    """What the words ask for: a command, and the numbers that go with it. None where that is of no form that is built."""
    command = words[0].decode('latin-1') if words else ''
    if command not in built:
        return None
    if command == 'gen':
        rounds = number(words[1], 0, ROUNDS) if len(words) == 2 else None
        return None if rounds is None else ('gen', rounds)
    if command != 'count':
        return (command,) if len(words) == 1 else None
    chosen, rest = {}, list(words[1:])
    while rest:
        name, joined, value = rest.pop(0).partition(b'=')
        if name == FEED and not joined and several and FEED not in chosen:
            chosen[FEED] = 1
            continue
        if not joined and rest:
            value = rest.pop(0)
        if name not in OPTIONS or name in chosen or number(value, 1, OPTIONS[name]) is None:
            return None
        chosen[name] = int(value)
    workers = chosen.get(b'--workers', 1)
    return ('count', workers, chosen.get(b'--task', 64), chosen.get(b'--pages', PAGES)) if workers == 1 or several else None


class Script:
    """A script as it was read: `bad` is the first bad line with its reason, or None."""

    def __init__(self, text):
        self.lines, self.bad, lines = [], None, lines_of(text)
        head = words_of(lines[0])
        whole = len(head) == 3 and head[0] == b'heap'
        self.pages = number(head[1], 1, PAGES) if whole else None
        self.threads = number(head[2], 1, THREADS) if whole else None
        if None in (self.pages, self.threads):
            self.bad = (1, 'bad header')
            return
        for at, line in enumerate(lines[1:], 2):
            words = words_of(line)
            if not words or line.startswith(b'#'):
                continue
            reason, call = command_of(words, self.threads)
            if reason:
                self.bad = (at, reason)
                return
            self.lines.append((at, *call))

    def calls(self):
        return [call for _, *call in self.lines]

    def printed(self):
        """The script, each line in its plain form and the lines without a command empty."""
        at, text = 1, f'heap {self.pages} {self.threads}\n'
        for line, thread, word, numbers in self.lines:
            text += '\n' * (line - at - 1) + ' '.join(map(str, [thread, word] + numbers)) + '\n'
            at = line
        return text.encode()


def command_of(words, threads):
    """Why the words are no command, or the call that they are."""
    thread = number(words[0], 1, threads)
    if thread is None:
        return 'bad thread', None
    if len(words) == 1:
        return 'missing word', None
    word = words[1].decode('latin-1')
    if word not in NUMBERS:
        return 'bad command', None
    numbers = []
    for k in range(NUMBERS[word]):
        if len(words) <= 2 + k:
            return 'missing word', None
        numbers.append(number(words[2 + k], 0, 2 ** 63 - 1 if word == 'int' else 2 ** 32 - 1))
        if numbers[-1] is None:
            return 'bad number', None
    return ('extra word', None) if len(words) > 2 + len(numbers) else (None, (thread, word, numbers))


def replies_of(script, out):
    """The replies that were told, or None where the lines aren't those of the script's commands."""
    told = [line.split(' ', 1) for line in out.decode('latin-1').split('\n')]
    whole = told.pop() == [''] and [line[0] for line in told] == [str(line) for line, *_ in script.lines]
    return [line[1] for line in told] if whole and all(len(line) == 2 for line in told) else None


def fits_alone(lines):
    """Whether the replies to one thread's calls fit each other, whatever the others did: its own stack, depth and integers."""
    stack, depth = ['ref 16'], 0
    for word, numbers, told in lines:
        slots = numbers[:1] if word in ('dup', 'load', 'get') else numbers if word == 'same' else [numbers[0], numbers[2]] if word == 'store' else []
        full, some = len(stack) >= 64, '.*'
        first = None
        if any(slot >= len(stack) for slot in slots):
            some = 'bad slot'
        elif word == 'new' and numbers[0] > FIELDS:
            some = 'too long'
        elif word in ('load', 'store'):
            first = stack[numbers[0]]
            if first is None:
                some = 'not a reference|bad field|stack full|ok' if word == 'load' else 'not a reference|bad field|ok'
            elif not first.startswith('ref'):
                some = 'not a reference'
            elif numbers[1] >= int(first[4:]):
                some = 'bad field'
            else:
                some = 'stack full' if full and word == 'load' else 'ok'
        elif word in ('int', 'null', 'dup', 'new'):
            some = 'stack full' if full else 'ok' if word != 'new' else 'ok|out of heap'
        elif word == 'get':
            first = stack[numbers[0]]
            some = first or 'null|int [0-9]+|ref [0-9]+'
            stack[numbers[0]] = told
        else:
            some = {'pop': 'ok' if stack else 'stack empty', 'begin': 'ok' if depth < 8 else 'too deep', 'end': 'ok moved [0-9]+( tight)?' if depth else 'no epoch',
                    'collect': 'ok', 'census': 'pages free [0-9]+ region [0-9]+ control [0-9]+', 'same': 'yes|no'}[word]
        if not re.fullmatch(some, told):
            return False
        if told == 'ok' and word in ('int', 'null', 'dup', 'new', 'load'):
            stack.append({'int': 'int %d' % numbers[0] if numbers else None, 'null': 'null', 'dup': stack[numbers[0]] if word == 'dup' else None,
                          'new': 'ref %d' % numbers[0] if numbers else None, 'load': None}[word])
        elif told == 'ok' and word == 'pop':
            stack.pop()
        depth += (word == 'begin' and told == 'ok') - (word == 'end' and told != 'no epoch')
    return True


def fits_threads(script, told):
    """Whether the replies fit thread by thread, and each census adds up."""
    own = {t: [(word, numbers, reply) for (u, word, numbers), reply in zip(script.calls(), told) if u == t] for t in range(1, script.threads + 1)}
    pages = [sum(map(int, re.findall('[0-9]+', reply))) for reply in told if reply.startswith('pages')]
    return all(map(fits_alone, own.values())) and all(found == script.pages for found in pages)


def count(text, workers, task, pages):
    """The answers that a count may give: pairs of a status and what is written."""
    words = []
    for found in re.finditer(rb'[^ \t\n\r]+', text):
        words.append(found.group())
        if len(words[-1]) > LONGEST:
            return [(8, b'line %d: long word\n' % (1 + text.count(b'\n', 0, found.start())))]
    lines = lines_of(text)
    busy = sum(1 for at in range(0, len(lines), task) if any(line.strip(b' \t\r') for line in lines[at:at + task]))
    counts = collections.Counter(words)
    size = lambda word: -(-len(word) // 7)
    most = 19 + 131 * (workers + busy) + sum(16 + size(word) for word in words)
    least = 19 + (131 + sum(10 + size(word) for word in counts) if words else 0)
    done = (0, b''.join(b'%d %s\n' % (counts[word], word) for word in sorted(counts)))
    answers = [done] if least <= PAGE_WORDS * pages else []
    return answers + ([(7, b'')] if 128 * pages <= most + 128 * (workers + 1) else [])


def generated(rounds):
    """The script of `gen`."""
    text, x = ['heap 64 4'], rounds % 65537
    for j in range(1, rounds + 1):
        x = (75 * x + 74) % 65537
        t, f, k = (j - 1) % 4 + 1, x // 3 % 16, x // 48 % 20
        u = t % 4 + 1
        text += [[f'{t} begin', f'{t} new 3', f'{t} new {k}', f'{t} store 1 0 2', f'{t} store 0 {f} 1', f'{t} end', f'{t} pop', f'{t} pop'],
                 [f'{t} begin', f'{t} new {k}', f'{t} pop', f'{t} end'],
                 [f'{t} begin', f'{t} new {k}', f'{t} store 0 {f} 1', f'{u} load 0 {f}', f'{t} null',
                  f'{t} store 0 {f} 2', f'{t} pop', f'{t} pop', f'{t} end', f'{u} get 1', f'{u} pop']][x % 3]
    return '\n'.join(text + ['1 collect', '1 census', '']).encode()


def summary(script, told):
    """The summary of the replies to a script."""
    moved = sum(int(reply.split()[2]) for reply in told if reply.startswith('ok moved'))
    return f'calls {len(told)}\nmoved {moved}\n{told[-1]}\n'.encode()


def entry_of(words, threads):
    """The entry of a trace that the words are: a thread that collected, or a line with its reply."""
    if len(words) == 2 and words[0] == b'collected':
        thread = number(words[1], 1, threads)
        return None if thread is None else ('collected', thread)
    line = number(words[0], 0, 2 ** 32 - 1)
    reply = b' '.join(words[1:]).decode('latin-1')
    found = REPLY.fullmatch(reply)
    if line is None or not found:
        return None
    right = all(told is None or number(told.encode(), 0, 2 ** bits - 1) is not None for told, bits in zip(found.groups(), REPLY_BITS))
    return (line, reply) if right else None


def trace_of(text):
    """The script and the entries of a trace, or the answer where it is none."""
    lines = text.split(b'\n')
    ends = [at for at, line in enumerate(lines) if words_of(line[:-1] if line.endswith(b'\r') and at + 1 < len(lines) else line) == [b'==']]
    front = b''.join(line + b'\n' for line in lines[:ends[0]]) if ends else text
    script = Script(front)
    if script.bad:
        return None, (2, b'line %d: %s\n' % (script.bad[0], script.bad[1].encode()))
    whole, entries = lines_of(text), []
    for at, line in enumerate(whole[ends[0] + 1:] if ends else [], ends[0] + 2 if ends else 0):
        words = words_of(line)
        if words and not line.startswith(b'#'):
            entries.append(entry_of(words, script.threads))
            if entries[-1] is None:
                return None, (9, b'line %d: bad trace\n' % at)
    return ((script, entries), None) if ends else (None, (9, b'line %d: bad trace\n' % (len(whole) + 1)))


def breaks(script, entries):
    """The first entry that breaks a trace, from 1, or None."""
    spaces, before = Spaces(script.threads), None
    left = {t: [line for line in script.lines if line[1] == t] for t in range(1, script.threads + 1)}
    for at, (head, told) in enumerate(entries, 1):
        own = [lines for lines in left.values() if lines and lines[0][0] == head]
        was = before[1] if before and before[0] == 'collected' else None
        if head == 'collected':
            if was:
                return at
            spaces.collect()
        else:
            if not own:
                return at
            _, t, word, numbers = own[0].pop(0)
            packed = before is not None and before[0] == 'collect'
            if was not in (None, t) or not spaces.turns(script.pages, t, word, numbers, told, was is not None, packed):
                return at
        before = (head, told) if head == 'collected' else (word, told)
    all_told = not any(left.values()) and not (before and before[0] == 'collected')
    return None if all_told else len(entries) + 1


def wrong(asked, usage, text, status, out):
    """What was due, where the program's answer is none of those that it may give; else None. `asked` is what `form` gives."""
    if asked is None:
        due = [(1, usage)]
    elif asked[0] != 'gen' and len(text) > LIMIT:
        due = [(6, b'')]
    elif asked[0] == 'count':
        due = count(text, *asked[1:])
    elif asked[0] == 'check':
        found, answer = trace_of(text)
        at = breaks(*found) if found else None
        due = [answer or ((0, b'lawful\n') if at is None else (10, b'entry %d\n' % at))]
    elif asked[0] == 'gen':
        return None if status == 0 and out.startswith(b'calls %d\n' % (generated(asked[1]).count(b'\n') - 1)) else 'a summary'
    else:
        script = Script(text)
        if not script.bad:
            return None if status == 0 and answers_script(asked[0], script, out) else 'status 0 and replies that the calls may have'
        due = [(2, b'line %d: %s\n' % (script.bad[0], script.bad[1].encode()))]
    return None if (status, out) in due else ' or '.join(f'{due_status} {due_out[:200]!r}' for due_status, due_out in due)


def answers_script(command, script, out):
    """Whether this is what a command may write for a script."""
    if command == 'trace':
        front = script.printed() + b'==\n'
        found = trace_of(out)[0] if out.startswith(front) else None
        in_order = found is not None and [head for head, _ in found[1] if head != 'collected'] == [line for line, *_ in script.lines]
        return in_order and breaks(*found) is None
    told = replies_of(script, out)
    if told is None:
        return False
    if command == 'threads' and script.threads > 1:
        return fits_threads(script, told)
    return explained(script.pages, script.threads, script.calls(), told)
