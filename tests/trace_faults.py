"""The fault of the bytes of a trace: its kind and the number of its line or record, or None where they are a trace. Written
from docs/trace-format.md alone, so that the program's readers can be compared with it."""
import re
import struct

EVENT, THREAD, OBJECT, OR_NONE, NAMED = (0, 1 << 40), (0, 63), (1, (1 << 24) - 1), (0, (1 << 24) - 1), (1, (1 << 32) - 1)
# The fields of each letter with their least and greatest number, and None for a name; and how a binary record has the numbers.
FIELDS = {'H': [EVENT], 'C': [NAMED, None], 'N': [NAMED, NAMED, None, None],
          'A': [EVENT, THREAD, OBJECT, NAMED, (16, 1 << 30), (0, 1 << 26)],
          'U': [EVENT, THREAD, OR_NONE, (0, (1 << 28) - 1), OR_NONE, OR_NONE], 'M': [EVENT, THREAD, NAMED, OR_NONE],
          'E': [EVENT, THREAD, NAMED], 'X': [EVENT, THREAD, NAMED, OBJECT], 'F': [EVENT, OR_NONE], 'D': [OBJECT, EVENT],
          'Z': [EVENT, (0, 3)]}
PACKED = {'H': '>Q', 'C': '>I', 'N': '>II', 'A': '>QBIIQI', 'U': '>QBIIII', 'M': '>QBII', 'E': '>QBI', 'X': '>QBII', 'F': '>QI',
          'D': '>IQ', 'Z': '>QB'}
NUMBER = re.compile(rb'0|[1-9][0-9]*')
NAME = re.compile(rb'(?:[!-$&-~]|%(?:[01][0-9A-F]|20|25|7F|[89A-F][0-9A-F]))+')


class Rules:
    """The lines of a trace so far."""

    def __init__(self):
        self.begun = self.ended = False
        self.interval = self.latest = self.awaited = self.last_dead = 0
        self.flushed, self.final, self.stands = None, False, False
        self.classes, self.methods, self.births, self.dead = [], [], [], set()

    def breaks(self, letter, fields):
        """The kind of the first rule that the line breaks; else it is kept."""
        if self.ended:
            return 6
        tests = ((2, self.order), (3, self.known), (2, self.lives), (4, self.new))
        kind = next((kind for kind, test in tests if not test(letter, *fields)), None)
        if kind is None:
            self.keep(letter, *fields)
        return kind

    def order(self, letter, first, *rest):
        if letter == 'H' or not self.begun:
            return letter == 'H' and not self.begun
        if letter == 'D':
            return self.awaited > 0 and first > self.last_dead and rest[0] <= self.flushed
        if self.awaited > 0:
            return False
        if letter == 'Z':
            return self.stands and first == self.flushed
        if self.final:
            return False
        if letter in 'CN':
            return first == len(self.classes if letter == 'C' else self.methods) + 1
        since = -1 if self.flushed is None else self.flushed
        due = (max(since, 0) // self.interval + 1) * self.interval if self.interval else first
        return self.latest <= first and since < first <= due and (letter != 'A' or rest[1] == len(self.births) + 1)

    def objects(self, letter, fields):
        return {'U': fields[2:3] + fields[4:], 'M': fields[3:], 'X': fields[3:], 'D': fields[:1]}.get(letter, ())

    def known(self, letter, *fields):
        classes = {'N': fields[1:2], 'A': fields[3:4]}.get(letter, ())
        methods = fields[2:3] if letter in 'MEX' else ()
        return all(number <= len(known) for numbers, known in ((classes, self.classes), (methods, self.methods),
                                                               (self.objects(letter, fields), self.births))
                   for number in numbers)

    def lives(self, letter, *fields):
        if letter == 'D':
            return self.births[fields[0] - 1] <= fields[1]
        return not self.dead.intersection(self.objects(letter, fields))

    def new(self, letter, *fields):
        return {'C': lambda: fields[1] not in self.classes, 'N': lambda: fields[1:] not in self.methods,
                'D': lambda: fields[0] not in self.dead}.get(letter, lambda: True)()

    def keep(self, letter, *fields):
        self.begun, self.ended = True, letter == 'Z'
        if letter == 'D':
            self.awaited -= 1
            self.last_dead = fields[0]
            self.dead.add(fields[0])
            return
        self.last_dead, self.stands = 0, letter == 'F'
        if letter == 'H':
            self.interval = fields[0]
        elif letter == 'C':
            self.classes.append(fields[1])
        elif letter == 'N':
            self.methods.append(fields[1:])
        elif letter == 'F':
            self.flushed, self.awaited = fields
            self.final = not (self.interval and fields[0] and fields[0] % self.interval == 0)
        elif letter == 'A':
            self.births.append(fields[0])
        if letter in 'AUMEXF':
            self.latest = fields[0]


def in_range(letter, fields):
    return all(field != b'' if bounds is None else bounds[0] <= field <= bounds[1]
               for field, bounds in zip(fields, FIELDS[letter]))


def read_line(line):
    """The letter and the fields of a line of text, or None."""
    letter, *texts = line.split(b' ')
    letter = letter.decode('latin-1')
    if letter not in FIELDS or letter == 'H' and texts[:1] != [b'1']:
        return None
    texts = texts[1:] if letter == 'H' else texts
    forms = [NAME if bounds is None else NUMBER for bounds in FIELDS[letter]]
    if len(texts) != len(forms) or not all(form.fullmatch(text) for form, text in zip(forms, texts)):
        return None
    fields = tuple(int(text) if form is NUMBER else re.sub(rb'%(..)', lambda two: bytes([int(two[1], 16)]), text)
                   for form, text in zip(forms, texts))
    return (letter, fields) if in_range(letter, fields) else None


def text_fault(content):
    *lines, rest = content.split(b'\n')
    rules = Rules()
    for number, line in enumerate(lines, 1):
        read = None if rules.ended else read_line(line)
        kind = 6 if rules.ended else 1 if read is None else rules.breaks(*read)
        if kind:
            return kind, number
    if rules.ended and not rest:
        return None
    return (6 if rules.ended else 5), len(lines) + 1


def read_record(content, at):
    """The letter and the fields of the record at a place and the place behind it; None where it isn't whole."""
    letter = chr(content[at])
    end = at + 1 + struct.calcsize(PACKED[letter])
    if end > len(content):
        return None
    fields = struct.unpack_from(PACKED[letter], content, at + 1)
    for _ in range(FIELDS[letter].count(None)):
        begin = end + 4
        end = begin + int.from_bytes(content[end:begin], 'big')
        if begin > len(content) or end > len(content):
            return None
        fields += (content[begin:end],)
    return letter, fields, end


def pack_fault(content):
    opening = b'\xfeET2'
    if content[:4] != opening[:len(content)]:
        return 1, 1
    rules, at, number = Rules(), 4, 1
    while at < len(content):
        if rules.ended:
            return 6, number
        if chr(content[at]) not in FIELDS:
            return 1, number
        record = read_record(content, at)
        if record is None:
            return 5, number
        letter, fields, at = record
        kind = rules.breaks(letter, fields) if in_range(letter, fields) else 1
        if kind:
            return kind, number
        number += 1
    return None if rules.ended else (5, number)


def fault_of(content):
    return pack_fault(content) if content[:1] == b'\xfe' else text_fault(content)
