"""Reads class files: what each declares, what its code names and where, and which members the built-in classes have.
`needs` and `trace-java` share it. The format is that of the Java Virtual Machine Specification, SE 8, chapter 4."""
import re
import struct
import zipfile
from collections import namedtuple
from pathlib import Path

LANG = 'java/lang/'
# The classes that the machine has itself: (superclass, interfaces, methods). crates/et_boot/src/lib.rt is the table of the
# program; tests/tools compares the two.
THROWN = ('<init>()V', '<init>(Ljava/lang/String;)V', '<init>(Ljava/lang/String;Ljava/lang/Throwable;)V')
SHOWN = ('Ljava/lang/String;', 'I', 'J', 'C', 'Z')
BUILT_IN = {
    'java/lang/Object': (None, (), ('<init>()V',)),
    'java/lang/Runnable': ('java/lang/Object', (), ('run()V',)),
    'java/lang/Cloneable': ('java/lang/Object', (), ()),
    'java/lang/AutoCloseable': ('java/lang/Object', (), ('close()V',)),
    'java/io/Serializable': ('java/lang/Object', (), ()),
    'java/lang/String': ('java/lang/Object', (), ('length()I', 'charAt(I)C', 'equals(Ljava/lang/Object;)Z')),
    'java/lang/StringBuilder': ('java/lang/Object', (), (
        '<init>()V', '<init>(Ljava/lang/String;)V', 'length()I', 'toString()Ljava/lang/String;',
        *(f'append({shown})Ljava/lang/StringBuilder;' for shown in SHOWN))),
    'java/io/PrintStream': ('java/lang/Object', (), (
        *(f'{name}({shown})V' for name in ('print', 'println') for shown in SHOWN), 'println()V')),
    'java/lang/System': ('java/lang/Object', (), ()),
    'java/lang/Thread': ('java/lang/Object', ('java/lang/Runnable',), (
        '<init>()V', '<init>(Ljava/lang/Runnable;)V', 'start()V', 'join()V', 'run()V')),
    'java/lang/ref/Reference': ('java/lang/Object', (), ('get()Ljava/lang/Object;', 'clear()V')),
    'java/lang/ref/WeakReference': ('java/lang/ref/Reference', (), (
        '<init>(Ljava/lang/Object;)V', '<init>(Ljava/lang/Object;Ljava/lang/ref/ReferenceQueue;)V')),
    'java/lang/ref/ReferenceQueue': ('java/lang/Object', (), ('<init>()V', 'poll()Ljava/lang/ref/Reference;')),
    'java/lang/Throwable': ('java/lang/Object', ('java/io/Serializable',), THROWN + (
        'getMessage()Ljava/lang/String;', 'getCause()Ljava/lang/Throwable;', 'addSuppressed(Ljava/lang/Throwable;)V')),
}
BELOW = '''Throwable: Exception Error
Exception: RuntimeException InterruptedException CloneNotSupportedException
RuntimeException: ArithmeticException ArrayStoreException ClassCastException IllegalArgumentException
RuntimeException: IllegalMonitorStateException IllegalStateException IndexOutOfBoundsException
RuntimeException: NegativeArraySizeException NullPointerException UnsupportedOperationException
IndexOutOfBoundsException: ArrayIndexOutOfBoundsException StringIndexOutOfBoundsException
IllegalArgumentException: IllegalThreadStateException
Error: LinkageError VirtualMachineError AssertionError
LinkageError: NoClassDefFoundError ExceptionInInitializerError UnsatisfiedLinkError IncompatibleClassChangeError
IncompatibleClassChangeError: AbstractMethodError InstantiationError NoSuchFieldError NoSuchMethodError
VirtualMachineError: StackOverflowError OutOfMemoryError'''
for _line in BELOW.splitlines():
    _above, _, _names = _line.partition(': ')
    BUILT_IN.update({LANG + name: (LANG + _above, (), THROWN) for name in _names.split()})
# Fields of built-in classes that a name resolves to.
BUILT_IN_FIELDS = {'java/lang/Thread': ('target Ljava/lang/Runnable;',), 'java/lang/System': ('out Ljava/io/PrintStream;',)}

# How many bytes of operands the instruction of an opcode has, where it is none of those that step() knows.
OPERANDS = {op: size for size, ops in {
    1: [0x10, 0x12, *range(0x15, 0x1a), *range(0x36, 0x3b), 0xa9, 0xbc],
    2: [0x11, 0x13, 0x14, 0x84, *range(0x99, 0xa9), *range(0xb2, 0xb9), 0xbb, 0xbd, 0xc0, 0xc1, 0xc6, 0xc7],
    3: [0xc5], 4: [0xb9, 0xba, 0xc8, 0xc9]}.items() for op in ops}
# Instructions on float and double.
FLOATING = {*range(0x0b, 0x10), 0x17, 0x18, *range(0x22, 0x2a), 0x30, 0x31, 0x38, 0x39, *range(0x43, 0x4b), 0x51, 0x52, 0x62, 0x63,
            0x66, 0x67, 0x6a, 0x6b, 0x6e, 0x6f, 0x72, 0x73, 0x76, 0x77, 0x86, 0x87, *range(0x89, 0x91), *range(0x95, 0x99), 0xae, 0xaf}

# The class files of the library for traced programs.
GUEST = Path(__file__).resolve().parent.parent / 'guest' / 'classes'

# What a class file names: a class, or a member of it (name and descriptor, a space between for a field), and in which method.
Use = namedtuple('Use', 'kind class_name member method line')
# Something that the program refuses in a class file, and where.
Refused = namedtuple('Refused', 'what method line')


class BadClass(Exception):
    """What is no class file."""


class ClassFile:
    """A class file: `name`, `super_name`, `interfaces`, `version`, `fields` and `methods` (as in BUILT_IN), `uses` and
    `refused`, its `natives`, and whether it has a main method."""

    def __init__(self, data, path='?'):
        self.path, self.data = path, data
        try:
            self._read()
        except (struct.error, IndexError, KeyError, TypeError, ValueError):
            hint = ': compile it, or give it to trace-java' if path.endswith('.java') else ', or a damaged one'
            raise BadClass(f'{path}: no class file{hint}') from None

    def _u(self, form):
        values = struct.unpack_from('>' + form, self.data, self.at)
        self.at += struct.calcsize('>' + form)
        return values if len(values) > 1 else values[0]

    def _read(self):
        self.at = 0
        if self._u('I') != 0xcafebabe:
            raise ValueError
        _, self.version, count = self._u('HHH')
        self._read_pool(count)
        _flags, this, above, count = self._u('HHHH')
        self.name = self._class(this)
        self.super_name = self._class(above) if above else None
        self.interfaces = [self._class(self._u('H')) for _ in range(count)]
        self.uses, self.refused, self.natives, self.fields, self.methods = [], [], [], set(), set()
        for _ in range(self._u('H')):
            name, descriptor = self._member()[1:3]
            self.fields.add(f'{name} {descriptor}')
            self._look_at_types(f'the field {name}', descriptor)
        for _ in range(self._u('H')):
            flags, name, descriptor, code = self._member()
            self.methods.add(name + descriptor)
            self._look_at_types(f'the method {name}', descriptor)
            if code:
                self._read_code(name, *code)
            if flags & 0x0100:
                self.natives.append(name + descriptor)
        self.has_main = 'main([Ljava/lang/String;)V' in self.methods
        del self.pool

    def _read_pool(self, count):
        self.pool, index = {}, 1
        while index < count:
            tag = self._u('B')
            if tag == 1:
                size = self._u('H')
                self.pool[index] = (1, self.data[self.at:self.at + size].decode('utf-8', 'backslashreplace'))
                self.at += size
            elif tag in (7, 8, 16):
                self.pool[index] = (tag, self._u('H'))
            elif tag in (9, 10, 11, 12, 17, 18):
                self.pool[index] = (tag, *self._u('HH'))
            elif tag in (3, 4):
                self.pool[index] = (tag, self._u('I'))
            elif tag in (5, 6):
                self.pool[index] = (tag, self._u('Q'))
                index += 1
            elif tag == 15:
                self.pool[index] = (tag, *self._u('BH'))
            else:
                raise ValueError
            index += 1

    def _utf8(self, index):
        return self.pool[index][1]

    def _class(self, index):
        return self._utf8(self.pool[index][1])

    def _name_and_type(self, index):
        _, name, descriptor = self.pool[index]
        return self._utf8(name), self._utf8(descriptor)

    def _member(self):
        flags, name, descriptor, count = self._u('HHHH')
        code = None
        for _ in range(count):
            attribute, size = self._u('HI')
            if self._utf8(attribute) == 'Code':
                code = (self.at, size)
            self.at += size
        return flags, self._utf8(name), self._utf8(descriptor), code

    def _look_at_types(self, where, descriptor):
        if re.search('[FD]', re.sub('L[^;]*;', '', descriptor)):
            self.refused.append(Refused(f'float or double in {where}', None, None))

    def _read_code(self, name, at, size):
        kept, self.at = self.at, at
        _, _, length = self._u('HHI')
        start, self.at = self.at, self.at + length
        caught = [self._u('HHHH')[3] for _ in range(self._u('H'))]
        lines = []
        for _ in range(self._u('H')):
            attribute, size = self._u('HI')
            if self._utf8(attribute) == 'LineNumberTable':
                lines += struct.iter_unpack('>HH', self.data[self.at + 2:self.at + size])
            self.at += size
        lines.sort()

        def line(pc):
            return max((at for at in lines if at[0] <= pc), default=(0, None))[1]

        for index in caught:
            if index:
                self._use('caught class', self._class(index), None, name, None)
        pc = 0
        while pc < length:
            op = self.data[start + pc]
            self._look_at(op, start + pc, name, line(pc))
            pc += self._step(op, start, pc)
        self.at = kept

    def _step(self, op, start, pc):
        """How many bytes the instruction has."""
        if op in (0xaa, 0xab):
            begin = pc + 1 + (-(pc + 1)) % 4
            if op == 0xab:
                return begin - pc + 8 + 8 * struct.unpack_from('>i', self.data, start + begin + 4)[0]
            low, high = struct.unpack_from('>ii', self.data, start + begin + 4)
            return begin - pc + 12 + 4 * (high - low + 1)
        if op == 0xc4:
            return 6 if self.data[start + pc + 1] == 0x84 else 4
        return 1 + OPERANDS.get(op, 0)

    def _look_at(self, op, at, method, line):
        def refuse(what):
            self.refused.append(Refused(what, method, line))

        if op in FLOATING or op == 0xc4 and self.data[at + 1] in FLOATING:
            refuse('float or double')
        elif op == 0xbc and self.data[at + 1] in (6, 7):
            refuse('float or double')
        elif op in (0xa8, 0xa9, 0xc9) or op == 0xc4 and self.data[at + 1] == 0xa9:
            refuse('jsr or ret (code of compilers before Java 6)')
        elif op == 0xba:
            refuse('invokedynamic (a lambda, a method reference, or strings joined by + in code for Java 9 and later)')
        elif op in (0x12, 0x13, 0x14):
            index = self.data[at + 1] if op == 0x12 else struct.unpack_from('>H', self.data, at + 1)[0]
            tag = self.pool[index][0]
            if tag == 7:
                refuse('class literal (as in each enum and each assert)')
            elif tag in (4, 6):
                refuse('float or double')
        elif op in (0xbb, 0xbd, 0xc0, 0xc1, 0xc5):
            self._use('class', self._class(struct.unpack_from('>H', self.data, at + 1)[0]), None, method, line)
        elif 0xb2 <= op <= 0xb9:
            _, owner, member = self.pool[struct.unpack_from('>H', self.data, at + 1)[0]]
            name, descriptor = self._name_and_type(member)
            kind = 'field' if op <= 0xb5 else 'method'
            self._use(kind, self._class(owner), name + ' ' * (kind == 'field') + descriptor, method, line)

    def _use(self, kind, class_name, member, method, line):
        if class_name.startswith('['):
            if kind == 'method':
                self.uses.append(Use('method', class_name, member, method, line))
            class_name = class_name.lstrip('[')
            if not class_name.startswith('L'):
                return
            class_name, kind, member = class_name[1:-1], 'class', None
        self.uses.append(Use(kind, class_name, member, method, line))

    def named(self):
        """The classes that it names: above it, and in its code."""
        above = [self.super_name] if self.super_name else []
        return dict.fromkeys([*above, *self.interfaces, *(use.class_name for use in self.uses if use.class_name[0] != '[')])


def class_files(paths):
    """Each class file of these paths: class files, folders with all below them, and jars."""
    for path in map(Path, paths):
        if path.is_dir():
            for file in sorted(path.rglob('*.class')):
                yield ClassFile(file.read_bytes(), str(file))
        elif path.suffix == '.jar':
            with zipfile.ZipFile(path) as jar:
                for name in sorted(jar.namelist()):
                    if name.endswith('.class') and not name.startswith('META-INF/') and name != 'module-info.class':
                        yield ClassFile(jar.read(name), f'{path}!{name}')
        else:
            yield ClassFile(path.read_bytes(), str(path))


class Classes:
    """A set of class files by their names, with the built-in classes below them."""

    def __init__(self, files):
        self.files = {}
        for file in files:
            self.files.setdefault(file.name, file)

    def has(self, name):
        return name in BUILT_IN or name in self.files

    def above(self, name):
        """The superclass and the interfaces of a class."""
        if name in BUILT_IN:
            super_name, interfaces, _ = BUILT_IN[name]
        else:
            super_name, interfaces = self.files[name].super_name, self.files[name].interfaces
        return [super_name] * bool(super_name) + list(interfaces)

    def declares(self, name, kind, member):
        if name in BUILT_IN:
            return member in (BUILT_IN[name][2] if kind == 'method' else BUILT_IN_FIELDS.get(name, ()))
        return member in (self.files[name].methods if kind == 'method' else self.files[name].fields)

    def finds(self, name, kind, member):
        """Whether a member is found in a class or above it. A class above that isn't there is told of elsewhere: yes, then."""
        if name.startswith('['):
            name = 'java/lang/Object'
        seen, left = set(), [name]
        while left:
            at = left.pop()
            if at in seen:
                continue
            seen.add(at)
            if not self.has(at) or self.declares(at, kind, member):
                return True
            if not member.startswith('<init>'):
                left += self.above(at)
        return False

    def needed(self, first):
        """The class files that a class needs, with what these need, that class first."""
        found, left = {}, [first]
        while left:
            name = left.pop(0)
            if name in self.files and name not in found and name not in BUILT_IN:
                found[name] = self.files[name]
                left += self.files[name].named()
        return list(found.values())


def missing(files):
    """A line for each thing that class files need and that is neither given nor built in: what it is, what happens then, and
    where it is named; what is refused comes first. Of those of guest/ nothing is told: docs/guest-library.md does."""
    classes, found, own = Classes(files), {}, {path.read_bytes() for path in GUEST.rglob('*.class')}

    def add(what, then, file, method=None, line=None):
        where = file.name + (f'.{method}' if method else '') + (f', line {line}' if line else '')
        found.setdefault((not then.startswith('refused'), what, then), []).append(where)

    for file in (file for file in files if file.data not in own):
        look_at_file(file, classes, add)
        for use in file.uses:
            look_at_use(file, use, classes, add)
    for (_, what, then), where in sorted(found.items()):
        places = list(dict.fromkeys(where))
        more = f' and {len(places) - 1} more' if len(places) > 1 else ''
        yield f'{what}: {then}; named in {places[0]}{more}'


def look_at_file(file, classes, add):
    if file.version > 52:
        add(f'class file version {file.version}', 'refused, status 4: compile with javac --release 8', file)
    if file.name in BUILT_IN:
        add(f'another class {file.name}', 'refused, status 5: it is built in, so leave the file out', file)
    for item in file.refused:
        add(item.what, 'refused, status 4', file, item.method, item.line)
    for name in file.natives:
        add(f'code of the native method {file.name}.{name}', 'throws UnsatisfiedLinkError', file)
    for name in [file.super_name or 'java/lang/Object', *file.interfaces]:
        if not classes.has(name):
            add(f'class {name}', f'refused, status 5: {file.name} stands below it', file)


def look_at_use(file, use, classes, add):
    is_there = use.class_name[0] == '[' or classes.has(use.class_name)
    if use.kind == 'caught class':
        if not is_there:
            add(f'class {use.class_name}', 'its handler catches nothing', file, use.method)
    elif not is_there:
        add(f'class {use.class_name}', 'throws NoClassDefFoundError', file, use.method, use.line)
    elif use.member and not classes.finds(use.class_name, use.kind, use.member):
        error = 'NoSuchMethodError' if use.kind == 'method' else 'NoSuchFieldError'
        add(f'{use.kind} {use.class_name}.{use.member}', f'throws {error}', file, use.method, use.line)
