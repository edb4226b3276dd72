"""Reads the traces of elephant, text and binary, and works out what simulators ask of them. Python 3.9, nothing else.

    from elephant_trace import Trace

    for record in records('queue.trace'):           each record, in the order of the file
    for time, record in timeline('queue.trace'):    A, U, M, E, X and D records in the order of time
    for event, live in live_bytes('queue.trace'):   the exact live curve
    trace = Trace('queue.trace')                    objects, with class, size, allocating method, birth and death

docs/trace-format.md says what the records mean. Nothing here checks a trace: `elephant curve FILE` does. What can't be
read at all, and a trace without its last line, is a TraceError.
"""
import bisect
import struct
import sys
from collections import defaultdict, namedtuple

Header = namedtuple('Header', 'version interval')                                   # H
Class = namedtuple('Class', 'number name')                                          # C
Method = namedtuple('Method', 'number class_number name descriptor')                # N
Alloc = namedtuple('Alloc', 'event thread object class_number size length')         # A
Write = namedtuple('Write', 'event thread object slot old new')                     # U
Enter = namedtuple('Enter', 'event thread method receiver')                         # M
Return = namedtuple('Return', 'event thread method')                                # E
Unwind = namedtuple('Unwind', 'event thread method exception')                      # X
Flush = namedtuple('Flush', 'event deaths')                                         # F
Death = namedtuple('Death', 'object time')                                          # D
End = namedtuple('End', 'event end')                                                # Z

# The record of each letter, how many of its last fields are names, and the numbers of a binary record.
KINDS = {'H': (Header, 0, '>Q'), 'C': (Class, 1, '>I'), 'N': (Method, 2, '>II'), 'A': (Alloc, 0, '>QBIIQI'),
         'U': (Write, 0, '>QBIIII'), 'M': (Enter, 0, '>QBII'), 'E': (Return, 0, '>QBI'), 'X': (Unwind, 0, '>QBII'),
         'F': (Flush, 0, '>QI'), 'D': (Death, 0, '>IQ'), 'Z': (End, 0, '>QB')}
BINARY = b'\xfeET2'
ENDS = ('every thread ended', 'the event limit came first', 'the next event has no meaning',
        'the next event would make too many objects or slots')


class TraceError(Exception):
    """What can't be read as a trace."""


def records(path):
    """Each record of a trace, text or binary, in the order of the file. Names have the escapes of a text: %20 is a space."""
    with sys.stdin.buffer if path == '-' else open(path, 'rb') as file:
        first = file.read(1)
        record = None
        for record in binary_records(file, first) if first == BINARY[:1] else text_records(file, first):
            yield record
        if not isinstance(record, End):
            raise TraceError(f'{path}: the trace has no Z line: its run was cut off, or part of the file is missing')


def text_records(file, first):
    for number, line in enumerate(file, 1):
        if first:
            line, first = first + line, b''
        try:
            letter, *fields = line.decode('ascii').split(' ')
            kind, names, _ = KINDS[letter]
            if not line.endswith(b'\n'):
                raise ValueError
            yield kind(*map(int, fields[:len(fields) - names]), *(name.rstrip('\n') for name in fields[len(fields) - names:]))
        except (KeyError, ValueError, TypeError):
            raise TraceError(f'line {number} is no line of a trace') from None


def binary_records(file, first):
    if first + file.read(3) != BINARY:
        raise TraceError('the first bytes are those of no trace')
    shapes = {ord(letter): (kind, names, struct.Struct(form)) for letter, (kind, names, form) in KINDS.items()}

    def taken(size):
        data = file.read(size)
        if len(data) < size:
            raise TraceError('the last record is cut off')
        return data

    while letter := file.read(1):
        if letter[0] not in shapes:
            raise TraceError(f'{letter!r} begins no record')
        kind, names, shape = shapes[letter[0]]
        fields = [2] if kind is Header else []
        fields += shape.unpack(taken(shape.size))
        fields += [escaped(taken(int.from_bytes(taken(4), 'big'))) for _ in range(names)]
        yield kind(*fields)


def escaped(name):
    return ''.join(chr(b) if 0x20 < b < 0x7f and b != 0x25 else f'%{b:02X}' for b in name)


def timeline(path):
    """(time, record) of each A, U, M, E, X and D record in the order of time. A death stands behind all that happens at
    its time, which is the last event at which the object was reachable. The whole trace is in memory for that."""
    found = []
    for record in records(path):
        if isinstance(record, (Alloc, Write, Enter, Return, Unwind)):
            found.append((record.event, record))
        elif isinstance(record, Death):
            found.append((record.time, record))
    found.sort(key=lambda item: (item[0], isinstance(item[1], Death)))
    return found


def live_bytes(path):
    """(event, live bytes) at each event at which that changes, and at the last one: the exact live curve. An object
    counts from the event that makes it up to its last reachable event, so a death at time t shows at t + 1."""
    sizes, changes, last = {}, defaultdict(int), 0
    for record in records(path):
        if isinstance(record, Alloc):
            sizes[record.object] = record.size
            changes[record.event] += record.size
        elif isinstance(record, Death):
            changes[record.time + 1] -= sizes[record.object]
        elif isinstance(record, End):
            last = record.event
    changes[last] += 0
    live = 0
    for event in sorted(changes):
        live += changes[event]
        yield event, live


def curve_lines(path):
    """(event, live bytes) at each event with an A, U, M, E or X line: what `elephant curve` writes."""
    items, live, event, dead = timeline(path), 0, None, []
    sizes = {}
    for time, record in items:
        if isinstance(record, Death):
            dead.append(sizes[record.object])
            continue
        if time != event:
            if event is not None:
                yield event, live
            live, dead, event = live - sum(dead), [], time
        if isinstance(record, Alloc):
            sizes[record.object] = record.size
            live += record.size
    if event is not None:
        yield event, live


# An object: the event that made it, its class by name, its bytes, the method that made it (None before the first), the
# bytes that were allocated up to it and with it, and its last reachable event (None: it never died).
Object = namedtuple('Object', 'number birth class_name size length site clock death')
# An exception that ended a thread: the event of the last X line, the class of the exception, and the method that it left.
Uncaught = namedtuple('Uncaught', 'thread event class_name object method')


class Trace:
    """A whole trace in memory: `objects` by number, `counts` of records by letter, `threads`, `uncaught` exceptions,
    `allocated` bytes, the last `event` and how the run ended (`end`, of which ENDS has the words)."""

    def __init__(self, path):
        self.counts, self.threads, self.allocated = defaultdict(int), set(), 0
        self.event = self.end = None
        self._stacks, self._classes, self._methods = defaultdict(list), {}, {}
        self._made, self._deaths, self._left, self._clock = [], {}, {}, [(0, 0)]
        letters = {kind: letter for letter, (kind, _, _) in KINDS.items()}
        for record in records(path):
            self.counts[letters[type(record)]] += 1
            self._take(record)
        self.objects = {a[0]: Object(*a, self._deaths.get(a[0])) for a in self._made}
        self.uncaught = [Uncaught(thread, x.event, self.objects[x.exception].class_name, x.exception, self._methods[x.method])
                         for thread, x in sorted(self._left.items())]

    def _take(self, record):
        stacks = self._stacks
        if isinstance(record, (Alloc, Write, Enter, Return, Unwind)):
            self.threads.add(record.thread)
        if isinstance(record, Class):
            self._classes[record.number] = record.name
        elif isinstance(record, Method):
            self._methods[record.number] = self._classes[record.class_number] + '.' + record.name
        elif isinstance(record, Alloc):
            self.allocated += record.size
            self._clock.append((record.event, self.allocated))
            site = self._methods[stacks[record.thread][-1]] if stacks[record.thread] else None
            self._made.append((record.object, record.event, self._classes[record.class_number], record.size, record.length,
                               site, self.allocated))
        elif isinstance(record, Enter):
            stacks[record.thread].append(record.method)
            self._left.pop(record.thread, None)
        elif isinstance(record, (Return, Unwind)):
            # The method that is left is the one on top of its thread's stack.
            stacks[record.thread].pop()
            if isinstance(record, Unwind) and not stacks[record.thread]:
                self._left[record.thread] = record
        elif isinstance(record, Death):
            self._deaths[record.object] = record.time
        elif isinstance(record, End):
            self.event, self.end = record

    def bytes_at(self, event):
        """How many bytes were allocated up to an event and with it: the clock of much of the literature."""
        return self._clock[bisect.bisect_right(self._clock, (event, float('inf'))) - 1][1]

    def age(self, thing):
        """How many bytes were allocated while an object lived, after it: its lifetime. One that never died lived to the end."""
        return self.bytes_at(self.event if thing.death is None else thing.death) - thing.clock


class MarkSweep:
    """A heap model to copy: one space of so many bytes, collected where a new object doesn't fit. It says what `elephant
    replay --mark-sweep` says. For a model of your own change `collect` and `write`."""

    def __init__(self, capacity):
        self.capacity, self.held, self.dead = capacity, {}, set()
        self.used = self.collections = self.marked = self.swept = self.peak = 0
        self.exhausted = None

    def run(self, path):
        for time, record in timeline(path):
            if isinstance(record, Alloc) and not self.place(record.object, record.size):
                self.exhausted = time
                break
            if isinstance(record, Write) and record.object:
                self.write(record.object, record.slot, record.new)
            if isinstance(record, Death):
                self.dead.add(record.object)
        return self

    def place(self, number, size):
        if self.used + size > self.capacity:
            self.collect()
        if self.used + size > self.capacity:
            return False
        self.held[number] = size
        self.used += size
        self.peak = max(self.peak, self.used)
        return True

    def collect(self):
        before = self.used
        self.held = {number: size for number, size in self.held.items() if number not in self.dead}
        self.used = sum(self.held.values())
        self.collections, self.marked, self.swept = self.collections + 1, self.marked + self.used, self.swept + before - self.used

    def write(self, number, slot, new):
        """A reference to the object `new`, or none (0), was written: a generational model keeps its remembered set here."""
