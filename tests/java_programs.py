"""Java programs that print, compiled by `javac --release 8` and run by `java` and by `elephant`: shared by tests/against-java
and tests/guest."""
import os
import shutil
import subprocess
import sys
from pathlib import Path

TOP = Path(__file__).resolve().parent.parent
sys.path.insert(0, str(TOP / 'tools'))
sys.dont_write_bytecode = True
from class_files import GUEST, Classes, class_files  # noqa: E402

LIBRARY = list(class_files([GUEST]))
# The class of guest/ that no JDK has: an interface, which a JVM is given as well.
OURS = 'elephant'


def call(words, folder=None, seconds=600):
    return subprocess.run([str(word) for word in words], cwd=folder, stdin=subprocess.DEVNULL, stdout=subprocess.PIPE,
                          stderr=subprocess.PIPE, timeout=seconds)


def needs_jdk(*tools):
    missing = [tool for tool in tools if not shutil.which(tool)]
    if missing:
        sys.exit(f'run: a JDK is needed: there is no {" and no ".join(missing)}')


class Program:
    """A program, compiled against the JDK into a folder of its own."""

    def __init__(self, source, folder):
        self.name, self.folder = Path(source).stem, folder
        shutil.copytree(GUEST / OURS, Path(folder) / OURS)
        done = call(['javac', '--release', '8', '-g:none', '-nowarn', '-Xlint:none', '-cp', folder, '-d', folder, source])
        if done.returncode != 0:
            sys.exit(f'run: javac refused {source}\n{done.stderr.decode()}')
        known = Classes([*class_files([folder]), *LIBRARY])
        self.files = [file.path for file in known.needed(self.name)]

    def uses_library(self):
        return any(path.startswith(str(GUEST)) for path in self.files)

    def java(self):
        """What it prints under `java`, with the library of the JDK."""
        words = ['java', '-Xmx256m', '-Dfile.encoding=UTF-8', '-Dstdout.encoding=UTF-8', '-cp', self.folder, self.name]
        return call(words).stdout

    def words(self, elephant, command, *options):
        """A command of the program elephant, given the class files of the program and those of guest/ that it needs."""
        return [elephant, command, *options, '--', *self.files]


def first_difference(ours, theirs):
    at = next((i for i, (a, b) in enumerate(zip(ours, theirs)) if a != b), min(len(ours), len(theirs)))
    line = theirs[:at].count(b'\n') + 1
    return f'they differ first in line {line}: {ours[at:at + 40]} here, {theirs[at:at + 40]} there'
