"""Typings of methods, computed from docs/verifier.md alone, beside the program: `verdict` says of class files what `verify` is
to answer. Types are I (an int), J and K (the lower and the upper entry of a long), A (a reference) and - (free); operands are
a string with the topmost one last."""
import re
import struct
import sys
from pathlib import Path

sys.path.insert(0, str(Path(__file__).resolve().parent.parent / 'tools'))
sys.dont_write_bytecode = True
from class_files import BUILT_IN

ENTRIES = {'I': 'I', 'J': 'JK', 'A': 'A', '': ''}
LENGTHS = {0x10: 2, 0x11: 3, 0x12: 2, 0x13: 3, 0x14: 3, 0x84: 3, 0xb9: 5, 0xbc: 2, 0xc5: 4, 0xc8: 5}
LENGTHS.update({op: 2 for op in (0x15, 0x16, 0x19, 0x36, 0x37, 0x3a)})
LENGTHS.update({op: 3 for op in (*range(0x99, 0xa8), *range(0xb2, 0xb9), 0xbb, 0xbd, 0xc0, 0xc1, 0xc6, 0xc7)})
# What an instruction takes, the topmost operand last, and what it gives.
EFFECTS = {0x00: ':', 0x01: ':A', 0x10: ':I', 0x11: ':I', 0x14: ':J', 0x2f: 'AI:J', 0x32: 'AI:A', 0x50: 'AIJ:', 0x53: 'AIA:',
           0x74: 'I:I', 0x75: 'J:J', 0x84: ':', 0x85: 'I:J', 0x88: 'J:I', 0x94: 'JJ:I', 0xa5: 'AA:', 0xa6: 'AA:', 0xa7: ':',
           0xaa: 'I:', 0xab: 'I:', 0xbb: ':A', 0xbc: 'I:A', 0xbd: 'I:A', 0xbe: 'A:I', 0xbf: 'A:', 0xc0: 'A:A', 0xc1: 'A:I',
           0xc2: 'A:', 0xc3: 'A:', 0xc6: 'A:', 0xc7: 'A:', 0xc8: ':'}
for _ops, _effect in ((range(0x02, 0x09), ':I'), ((0x09, 0x0a), ':J'), ((0x2e, 0x33, 0x34, 0x35), 'AI:I'),
                      ((0x4f, 0x54, 0x55, 0x56), 'AII:'), ((0x60, 0x64, 0x68, 0x6c, 0x70, 0x78, 0x7a, 0x7c, 0x7e, 0x80, 0x82), 'II:I'),
                      ((0x61, 0x65, 0x69, 0x6d, 0x71, 0x7f, 0x81, 0x83), 'JJ:J'), ((0x79, 0x7b, 0x7d), 'JI:J'),
                      (range(0x91, 0x94), 'I:I'), (range(0x99, 0x9f), 'I:'), (range(0x9f, 0xa5), 'II:')):
    EFFECTS.update(dict.fromkeys(_ops, _effect))
# The groups that a rearrangement takes, the topmost last (1 a value, 2 a long or two values), and how they stand then.
REARRANGEMENTS = {0x57: ('1', ''), 0x58: ('2', ''), 0x59: ('1', '00'), 0x5a: ('11', '101'), 0x5b: ('21', '101'), 0x5c: ('2', '00'),
                  0x5d: ('12', '101'), 0x5e: ('22', '101'), 0x5f: ('11', '10')}
LOADS = {0x15: 'I', 0x16: 'J', 0x19: 'A', **{0x1a + i: 'I' for i in range(4)}, **{0x1e + i: 'J' for i in range(4)},
         **{0x2a + i: 'A' for i in range(4)}}
STORES = {op + (0x21 if op < 0x2e else 0): kind for op, kind in LOADS.items()}
FIRST = {0x1a: 0x1a, 0x1e: 0x1e, 0x2a: 0x2a, 0x3b: 0x3b, 0x3f: 0x3f, 0x4b: 0x4b}
RETURNS = {0xac: 'I', 0xad: 'J', 0xb0: 'A', 0xb1: ''}


class Refused(Exception):
    """An instruction doesn't accept the types at its place, or leads to a place that can't be there."""


def kind_of(descriptor, result=False):
    """The kind of the operands of a type. Of F and D there are none, but as a result they count as an int and a long."""
    kind = {'J': 'J', 'L': 'A', '[': 'A', **dict.fromkeys('ISCBZ', 'I'), **(dict(F='I', D='J', V='') if result else {})}
    if descriptor[0] not in kind:
        raise Refused
    return kind[descriptor[0]]


def parts_of(descriptor):
    """The types of the parameters, and that of what is returned."""
    inside, _, returned = descriptor[1:].partition(')')
    return re.findall(r'\[*(?:L[^;]*;|.)', inside), returned


class Method:
    """A method with code."""

    def __init__(self, pool, flags, name, descriptor, body):
        self.pool, self.flags, self.name, self.descriptor = pool, flags, name, descriptor
        self.stack, self.locals, length = struct.unpack_from('>HHI', body)
        self.code, at = body[8:8 + length], 8 + length
        rows = struct.unpack_from('>H', body, at)[0]
        self.handlers = [row for row in struct.iter_unpack('>HHHH', body[at + 2:at + 2 + 8 * rows])]
        self.starts, pc = set(), 0
        while pc < length:
            self.starts.add(pc)
            pc += self.size(pc)

    def number(self, layout, at):
        return struct.unpack_from('>' + layout, self.code, at)[0]

    def switch(self, pc):
        """Where the table of a switch begins, and the places of its offsets."""
        table = pc + 1 + (3 - pc) % 4
        if self.code[pc] == 0xab:
            count = self.number('i', table + 4)
            return table + 8 + 8 * count, [table, *range(table + 12, table + 12 + 8 * count, 8)]
        count = self.number('i', table + 8) - self.number('i', table + 4) + 1
        return table + 12 + 4 * count, [table, *range(table + 12, table + 12 + 4 * count, 4)]

    def size(self, pc):
        op = self.code[pc]
        if op in (0xaa, 0xab):
            return self.switch(pc)[0] - pc
        if op == 0xc4:
            return 6 if self.code[pc + 1] == 0x84 else 4
        return LENGTHS.get(op, 1)

    def entry(self):
        """The types with which the method begins."""
        parameters, _ = parts_of(self.descriptor)
        given = '' if self.flags & 8 or self.name == '<clinit>' else 'A'
        given += ''.join(ENTRIES[kind_of(type)] for type in parameters)
        if len(given) > self.locals:
            raise Refused
        return '', given + '-' * (self.locals - len(given))

    def follow(self, pc, operands, variables, known):
        """The types after an instruction, and where it leads."""
        op, behind = self.code[pc], pc + self.size(pc)
        wide = op == 0xc4
        if wide:
            op = self.code[pc + 1]
        operands, variables = self.effect(pc, op, wide, operands, variables)
        if len(operands) > self.stack:
            raise Refused
        nexts = [] if op in (0xa7, 0xc8, 0xaa, 0xab, 0xbf, *RETURNS) else [behind]
        if op in (0xaa, 0xab):
            nexts += [pc + self.number('i', at) for at in self.switch(pc)[1]]
        elif op == 0xc8:
            nexts.append(pc + self.number('i', pc + 1))
        elif 0x99 <= op <= 0xa7 or op in (0xc6, 0xc7):
            nexts.append(pc + self.number('h', pc + 1))
        handlers = [handler for start, end, handler, catch in self.handlers
                    if start <= pc < end and (catch == 0 or known(self.pool.class_name(catch)))]
        if handlers and self.stack == 0 or not self.starts.issuperset(nexts + handlers):
            raise Refused
        return operands, variables, nexts, handlers

    def effect(self, pc, op, wide, operands, variables):
        if op in REARRANGEMENTS:
            return self.rearranged(op, operands), variables
        if op in LOADS or op in STORES or op == 0x84:
            index = self.number('H', pc + 2) if wide else self.code[pc + 1] if self.size(pc) > 1 else self.implied(op)
            if op in STORES:
                kind = STORES[op]
                return self.moved(operands, kind, ''), stored(variables, index, ENTRIES[kind])
            kind = LOADS.get(op, 'I')
            if variables[index:index + len(ENTRIES[kind])] != ENTRIES[kind]:
                raise Refused
            return self.moved(operands, '', kind if op in LOADS else ''), variables
        return self.moved(operands, *self.taken_and_given(pc, op)), variables

    def implied(self, op):
        return op - max(first for first in FIRST if first <= op)

    def taken_and_given(self, pc, op):
        if op in EFFECTS:
            return EFFECTS[op].split(':')
        if op in RETURNS:
            if kind_of(parts_of(self.descriptor)[1], result=True) != RETURNS[op] or parts_of(self.descriptor)[1] in ('F', 'D'):
                raise Refused
            return RETURNS[op], ''
        if op in (0x12, 0x13):
            return '', {3: 'I', 8: 'A'}[self.pool.entries[self.code[pc + 1] if op == 0x12 else self.number('H', pc + 1)][0]]
        if op == 0xc5:
            return 'I' * self.code[pc + 3], 'A'
        descriptor = self.pool.member_descriptor(self.number('H', pc + 1))
        below = '' if op in (0xb2, 0xb3, 0xb8) else 'A'
        if op in (0xb2, 0xb4):
            return below, kind_of(descriptor, result=True)
        if op in (0xb3, 0xb5):
            return below + kind_of(descriptor), ''
        parameters, returned = parts_of(descriptor)
        return below + ''.join(map(kind_of, parameters)), kind_of(returned, result=True)

    def moved(self, operands, taken, given):
        taken = ''.join(ENTRIES[kind] for kind in taken)
        if not operands.endswith(taken):
            raise Refused
        return operands[:len(operands) - len(taken)] + ENTRIES[given]

    def rearranged(self, op, operands):
        sizes, order = REARRANGEMENTS[op]
        groups = []
        for size in map(int, reversed(sizes)):
            operands, group = operands[:len(operands) - size], operands[-size:] if len(operands) >= size else ''
            if not re.fullmatch('[IA]' if size == 1 else 'JK|[IA][IA]', group):
                raise Refused
            groups.append(group)
        groups.reverse()
        if op in (0x5a, 0x5b, 0x5d, 0x5e):
            return operands + groups[1] + groups[0] + groups[1]
        return operands + ''.join(groups[int(place)] for place in order)

    def has_typing(self, known):
        """Whether the least typing is there: rounds over all places, until nothing changes."""
        try:
            types = {0: self.entry()}
            while True:
                before = dict(types)
                for pc in sorted(before):
                    operands, variables, nexts, handlers = self.follow(pc, *types[pc], known)
                    for place in handlers:
                        join(types, place, 'A', types[pc][1])
                    for place in nexts:
                        join(types, place, operands, variables)
                if types == before:
                    return True
        except Refused:
            return False


def stored(variables, index, entries):
    """Local variables after a store, which frees what was the other half of a long."""
    if index + len(entries) > len(variables):
        raise Refused
    types, last = list(variables), index + len(entries)
    if index and types[index - 1] == 'J':
        types[index - 1] = '-'
    if last < len(types) and types[last] == 'K':
        types[last] = '-'
    types[index:last] = entries
    return ''.join(types)


def join(types, place, operands, variables):
    if place in types:
        if types[place][0] != operands:
            raise Refused
        variables = ''.join(a if a == b else '-' for a, b in zip(types[place][1], variables))
    types[place] = operands, variables


class Pool:
    def __init__(self, data):
        self.entries, at, index = {}, 10, 1
        count = struct.unpack_from('>H', data, 8)[0]
        while index < count:
            tag = data[at]
            size = {1: 3, 3: 5, 4: 5, 5: 9, 6: 9, 7: 3, 8: 3, 15: 4, 16: 3}.get(tag, 5)
            size += struct.unpack_from('>H', data, at + 1)[0] if tag == 1 else 0
            self.entries[index] = tag, data[at + 1:at + size]
            at, index = at + size, index + (2 if tag in (5, 6) else 1)
        self.end = at

    def text(self, index):
        return self.entries[index][1][2:].decode('latin-1')

    def class_name(self, index):
        return self.text(struct.unpack('>H', self.entries[index][1])[0])

    def member_descriptor(self, index):
        pair = struct.unpack('>HH', self.entries[index][1])[1]
        return self.text(struct.unpack('>HH', self.entries[pair][1])[1])


class ClassCode:
    """A class file: its name, and its methods with code in their order, each with where its code stands in the file."""

    def __init__(self, data):
        self.pool = Pool(data)
        at = self.pool.end + 2
        self.name = self.pool.class_name(struct.unpack_from('>H', data, at)[0])
        at += 4 + 2 + 2 * struct.unpack_from('>H', data, at + 4)[0]
        self.methods, self.codes = [], []
        for kind in ('field', 'method'):
            count, at = struct.unpack_from('>H', data, at)[0], at + 2
            for _ in range(count):
                flags, name, descriptor, attributes = struct.unpack_from('>HHHH', data, at)
                at += 8
                for _ in range(attributes):
                    attribute, size = struct.unpack_from('>HI', data, at)
                    if kind == 'method' and self.pool.text(attribute) == 'Code':
                        self.codes.append((at + 14, struct.unpack_from('>I', data, at + 10)[0]))
                        self.methods.append(Method(self.pool, flags, self.pool.text(name), self.pool.text(descriptor),
                                                   data[at + 6:at + 6 + size]))
                    at += 6 + size


def verdict(files):
    """What `verify` is to say of these class files, which link: the line on standard output, or the one of the refusal."""
    classes = [ClassCode(data) for data in files]
    names = {known.name for known in classes}

    def known(name):
        return name in names or name in BUILT_IN or name.startswith('[')

    for one in classes:
        for method in one.methods:
            if not method.has_typing(known):
                return f'elephant: rejected {one.name} {method.name} {method.descriptor}'
    return f'verified {sum(len(one.methods) for one in classes)}'
