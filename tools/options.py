"""Options, messages and progress, the same for each tool."""
import os
import subprocess
import sys
import time
from pathlib import Path

TOP = Path(__file__).resolve().parent.parent


class Wrong(Exception):
    """A message for standard error; the tool ends with its status, 2."""

    @staticmethod
    def told(main):
        """The status of a tool, with its message where there is one."""
        try:
            return main(sys.argv[1:])
        except Wrong as wrong:
            print(f'{Path(sys.argv[0]).name}: {wrong}', file=sys.stderr)
            return 2
        except BrokenPipeError:
            os.dup2(os.open(os.devnull, os.O_WRONLY), sys.stdout.fileno())
            return 1
        except KeyboardInterrupt:
            return 130


def options(doc, words, valued, flags, least, most):
    """The options and the other words of a command line: `--name value`, `--name=value` and flags, before, between or after
    the others; `--` ends them. valued has the type of each value. -h and --help print the text."""
    if words and words[0] in ('-h', '--help'):
        print(doc.strip())
        sys.exit(0)
    given, paths, words = {}, [], list(words)
    while words:
        word = words.pop(0)
        if word == '--':
            paths += words
            break
        if not word.startswith('--'):
            paths.append(word)
            continue
        name, has_value, value = word[2:].partition('=')
        if name in flags and not has_value:
            given[name] = True
        elif name in valued and (has_value or words):
            value = value if has_value else words.pop(0)
            try:
                given[name] = valued[name](value)
            except ValueError:
                raise Wrong(f'--{name} takes a number, and not {value!r}') from None
        else:
            raise Wrong(f'{word} is no option, or lacks its value; --help says more')
    if not least <= len(paths) <= most:
        usage = next(line for line in doc.splitlines() if line.startswith('usage: '))
        raise Wrong(f'{usage}; --help says more')
    return given, paths


def program(given):
    """The path of elephant: the one of --program, or the one beside this folder. Where that is the launcher, it is called once,
    so that it builds here, where its lines are seen, and not in each of many calls."""
    if 'program' in given:
        return given['program']
    path = str(TOP / 'elephant')
    if not os.access(path, os.X_OK):
        raise Wrong(f'there is no program {path}: give --program PATH')
    if (TOP / 'crates').is_dir() and subprocess.run([path, 'curve', str(TOP / 'examples/Five.trace')], stdout=subprocess.DEVNULL).returncode:
        raise Wrong('there is no built program')
    return path


def written(text, path):
    """Writes a text to a file, or to standard output where there is no path."""
    if path:
        Path(path).write_text(text)
    else:
        sys.stdout.write(text)


class Progress:
    """One line on standard error that is written over twice a second at most, on a terminal, and every minute elsewhere."""

    def __init__(self):
        self.is_terminal = sys.stderr.isatty()
        self.began = self.last = time.monotonic()
        self.width = 0

    def due(self):
        return time.monotonic() - self.last >= (0.5 if self.is_terminal else 60)

    def seconds(self):
        return time.monotonic() - self.began

    def show(self, text):
        self.last = time.monotonic()
        if self.is_terminal:
            print('\r' + text.ljust(self.width), end='', file=sys.stderr, flush=True)
            self.width = len(text)
        else:
            print(text, file=sys.stderr, flush=True)

    def clear(self):
        if self.is_terminal and self.width:
            print('\r' + ' ' * self.width + '\r', end='', file=sys.stderr, flush=True)
