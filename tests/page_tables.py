"""What the pages show beside command lines, held against the program: the readers in Python, the tables of faults with their
examples, the listings with the bytes of Box, and figures in sentences. Called by tests/pages."""
import ast
import re
import subprocess
from pathlib import Path

TOP = Path(__file__).resolve().parent.parent
KINDS = {'Form': 1, 'Order': 2, 'Unknown': 3, 'Twice': 4, 'Unended': 5, 'After': 6}


class Shown:
    """The pages, the program, and a folder to work in."""

    def __init__(self, check, folder, program):
        self.check, self.folder, self.program = check, folder, program

    def text(self, page):
        return (TOP / page).read_text()

    def blocks(self, page, language=''):
        return re.findall(rf'^```{language}\n(.*?)^```$', self.text(page), re.M | re.S)

    def ran(self, *words):
        return subprocess.run([self.program, *map(str, words)], stdout=subprocess.PIPE, stderr=subprocess.PIPE)

    def put(self, name, data):
        path = self.folder / name
        path.parent.mkdir(parents=True, exist_ok=True)
        path.write_bytes(data)
        return path

    def assembled(self, listing, name='Some'):
        return self.put(f'{name}.class', self.ran('asm', self.put('some.txt', listing.encode())).stdout)

    def trace(self, *words):
        return self.ran('trace', *words).stdout

    def fault(self, command, path):
        """The end of the line that refuses a file: its kind, and the place."""
        said = self.ran(command, path).stderr.decode()
        found = re.fullmatch(r'elephant: bad (?:class|trace|text) \S+ (\d+ \d+)\n', said)
        return found[1] if found else said

    def rows(self, page, heading):
        """The cells of the table under a heading."""
        part = re.search(rf'^#+ {re.escape(heading)}\n(.*?)(?=^#|\Z)', self.text(page), re.M | re.S)[1]
        rows = [re.split(r' *(?<!\\)\| *', line.strip())[1:-1] for line in part.splitlines() if line.startswith('|')][2:]
        self.check(f'{page}: rows under {heading}', len(rows) > 3, True)
        return rows


def try_readers(shown):
    """The readers on the page about traces, which prints what the first one gives."""
    page, five = 'docs/trace-format.md', TOP / 'examples/Five.trace'
    names = {}
    for block in shown.blocks(page, 'python'):
        exec(block, names)
    wanted = next(block for block in shown.blocks(page) if block.startswith("(1, 'A'"))
    came = names['read'](five)
    shown.check('trace-format: the reader', came[:7], [ast.literal_eval(line) for line in wanted.splitlines()])
    numbers = [(time, letter, tuple(map(int, fields))) for time, letter, fields in came]
    binary = shown.put('five', shown.ran('convert', five).stdout)
    shown.check('trace-format: the binary reader', names['read_binary'](binary), numbers)
    # Box: main makes object 2; no method has been entered where the argument array is made.
    box = shown.put('box', shown.trace(TOP / 'examples/Box.class'))
    shown.check('trace-format: allocating methods', dict(names['sites'](box)), {'1': None, '2': '1'})


def try_class_faults(shown):
    box = (TOP / 'examples/Box.class').read_bytes()
    # The one method begins 33 bytes before the end: flags, name and descriptor, the count of its attributes, its Code of 23
    # bytes, and the count of the attributes of the class.
    start, code = len(box) - 33, box[-25:-2]
    twice = box[:start - 2] + b'\0\2' + box[start:-2] * 2 + box[-2:]
    edits = {'the first byte changed': bytes([box[0] ^ 1]) + box[1:], 'a byte more': box + b'\0', 'two methods of one name and descriptor': twice,
             'the class final and abstract': box[:80] + b'\x04\x31' + box[82:],
             "the method's descriptor is that of a field": shown.assembled('class Box java/lang/Object 0021\nmethod main I 0009 1 1\n'
                                                                            'new Box\npop\nreturn\nend\n').read_bytes(),
             'two `Code` attributes on a method': box[:start + 6] + b'\0\2' + code * 2 + box[-2:]}
    # Where the row names no offset: that of the item of which it speaks. The descriptor `I` is 21 bytes shorter than that of main.
    places = {'5': f'5 {start - 21 + 4}', '6': f'6 {len(box) - 2}', '7': f'7 {len(box) - 2}'}
    for kind, name, example, end, *_ in shown.rows('docs/messages.md', 'Kinds of class file faults (status 4)'):
        cut = re.match(r'cut after (\d+) bytes', example)
        changes = [box[:int(at)] + bytes.fromhex(byte) + box[int(at) + 1:] for at, byte in re.findall(r'byte (\d+) made (\w\w)', example)]
        files = changes or [box[:int(cut[1])] if cut else edits[example]]
        wanted = [places[kind]] if kind in places else re.findall(r'`(\d+ \d+)`', end)
        shown.check(f'messages: {name}', [shown.fault('trace', shown.put('Box.class', data)) for data in files], wanted)


def try_link_faults(shown):
    method = 'method m ()V 0000 1 1\nreturn\nend\n'
    listings = {'2': ['class Sub Gone 0021'], '3': ['class Loop Loop 0021'], '4': ['class Text java/lang/String 0021'],
                '5': ['class q/Lower p/Upper 0021\n' + method, 'class p/Upper java/lang/Object 0021\n' + method]}
    for kind, name, example, line, *_ in shown.rows('docs/messages.md', 'Kinds of link faults (status 5)'):
        if kind in listings:
            files = [shown.assembled(text + '\n', f'c{at}') for at, text in enumerate(listings[kind])]
            ran = shown.ran('trace', *files)
            shown.check(f'messages: {name}', (ran.returncode, f'`{ran.stderr.decode().strip()}`'), (5, line))


def changed(lines, example):
    """The lines of a trace or listing with the change of which a row of a table speaks, or None where it is another one."""
    made = re.match(r'line (\d+) (?:made )?`([^`]*)`', example)
    if made:
        return lines[:int(made[1]) - 1] + [made[2]] + lines[int(made[1]):]
    without = re.match(r'(?:without|no) line (\d+)$', example)
    if without:
        return lines[:int(without[1]) - 1] + lines[int(without[1]):]
    more = re.match(r'line (\d+) once more after itself, with the number 2$', example)
    if more:
        again = re.sub(r'^(\w) 1 ', r'\1 2 ', lines[int(more[1]) - 1])
        return lines[:int(more[1])] + [again] + lines[int(more[1]):]
    return None


def try_trace_faults(shown):
    box = shown.trace(TOP / 'examples/Box.class').decode()
    lines = box.splitlines()
    wholes = {'`Z 5 0` once more': box + 'Z 5 0\n', 'line 12 without its line feed': box[:-1], 'line 12 twice': box + lines[11] + '\n'}
    rows = [(f'messages: {name}', example, re.match(r'`(\d+ \d+)`', end)[1])
            for _, name, example, end in shown.rows('docs/messages.md', 'Kinds of trace faults (status 9)')]
    for example, fault in shown.rows('docs/trace-format.md', 'Examples'):
        name, at = re.match(r'(\w+) at (\d+)', fault).groups()
        rows.append((f'trace-format: {example}', example.replace('no line', 'without line'), f'{KINDS[name]} {at}'))
    for what, example, wanted in rows:
        example = re.sub(r'(`|without line \d+|number 2): .*', r'\1', example)
        edited = changed(lines, example)
        text = wholes[example] if edited is None else ''.join(line + '\n' for line in edited)
        shown.check(what, shown.fault('curve', shown.put('box', text.encode())), wanted)
    binary = shown.trace('--format', '2', TOP / 'examples/Box.class')
    for data, wanted in ((binary[:-1], '5 12'), (binary + b'Z', '6 13'), (b'\xfe', '5 1')):
        shown.check(f'trace-format: a binary trace of {len(data)} bytes', shown.fault('curve', shown.put('box', data)), wanted)
    lengths = re.search(r'`Box`, below, which has (\d+) bytes of it and (\d+) of text', shown.text('docs/trace-format.md'))
    shown.check('trace-format: lengths of Box', (len(binary), len(box)), tuple(map(int, lengths.groups())))


def try_listing_faults(shown):
    lines = (TOP / 'examples/Box.txt').read_text().splitlines()
    far = [*lines[:3], 'goto far', *['nop'] * 32_766, 'far:', *lines[3:]]
    for kind, name, example, end in shown.rows('docs/messages.md', 'Kinds of listing faults (status 12)'):
        edited = {'without the `end`': [line for line in lines if line != 'end'], '6': far}.get(kind if kind == '6' else example)
        wanted = '6 4' if kind == '6' else end.strip('`')
        text = '\n'.join(edited or changed(lines, example)) + '\n'
        shown.check(f'messages: {name}', shown.fault('asm', shown.put('box.txt', text.encode())), wanted)


def try_listings(shown):
    """Each listing on the page is one; the second is Box, whose bytes stand behind it; that of the verifier is in Meet."""
    page = 'docs/listings.md'
    pair, box, dump = shown.blocks(page)
    for text in (pair, box):
        shown.check(f'listings: {text[:20]!r}', shown.ran('asm', shown.put('some.txt', text.encode())).returncode, 0)
    shown.check('listings: Box', box.split(), (TOP / 'examples/Box.txt').read_text().split())
    digits = ''.join(line.split('   ')[0] for line in dump.splitlines() if line[0] != ' ')
    shown.check('listings: the bytes of Box', digits.replace(' ', ''), (TOP / 'examples/Box.class').read_bytes().hex())
    method = re.search(r'^    (method pick .*?^    end)$', shown.text('docs/verifier.md'), re.M | re.S)[1]
    meet = (TOP / 'examples/Meet.txt').read_text().split()
    shown.check('verifier: Meet', ' '.join(method.split()) in ' '.join(meet), True)


def examples_of(name):
    return [TOP / f'examples/{name}.class', *sorted((TOP / 'examples').glob(f'{name}$*.class'))]


def try_figures(shown):
    """Sentences on examples that say how much a run makes, holds, or how long it is."""
    page = shown.text('examples/README.md')
    made = [(part.partition(':')[0], re.search(r'([\d,]+) bytes are made, and never more than ([\d,]+) are live', part))
            for part in page.split('\n### ')]
    shown.check('examples: sentences on bytes', [name for name, numbers in made if numbers], ['Trees', 'Calculator'])
    for name, numbers in made:
        if not numbers:
            continue
        trace = shown.put('some', shown.trace(*examples_of(name)))
        sizes = [int(line.split()[5]) for line in trace.read_text().splitlines() if line.startswith('A ')]
        most = max(int(line.split()[1]) for line in shown.ran('curve', trace).stdout.decode().splitlines())
        shown.check(f'examples: bytes of {name}', (f'{sum(sizes):,}', f'{most:,}'), numbers.groups())
    lengths = re.search(r'([\d,]+) events with `--quantum 1`, ([\d,]+) with 100, and ([\d,]+) with 1,000', page)
    for quantum, wanted in zip((1, 100, 1000), lengths.groups()):
        last = shown.trace('--quantum', quantum, *examples_of('Exchange')).splitlines()[-1].split()[1]
        shown.check(f'examples: Exchange with --quantum {quantum}', f'{int(last):,}', wanted)


def try_all(check, folder, program, pages):
    shown = Shown(check, folder, program)
    tries = {'trace-format': (try_readers, try_trace_faults), 'listings': (try_listings,), 'README': (try_figures,),
             'messages': (try_class_faults, try_link_faults, try_listing_faults)}
    for page in {page.stem for page in pages}:
        for attempt in tries.get(page, ()):
            attempt(shown)
