"""What the command lines on the pages have to write where the page doesn't show it; read by tests/pages."""
import collections
import re
import shutil

COMMAND = r'(?:\./elephant|elephant|find|git|gnuplot|java|javac|jcmd|jfr|pv|python3|rt|zcat|(?:tools|tests|benches|examples|guest)/[\w/-]+) '
# The words in capitals stand for these; PID for the number of a JVM that tests/pages starts.
PLACES = {'MAIN': 'examples/Hello'}
# What a line needs beside what is before it on the page, made before it.
FIRST = {'zcat main.trace.gz': 'gzip -k main.trace'}
# The program of which a JVM is asked.
JAVA_MAIN = '''public class Main {
    static final int[][] KEPT = new int[64][];
    public static void main(String[] arguments) throws Exception {
        for (int i = 0; i < 400_000; i++) KEPT[i % 64] = new int[100];
        if (arguments.length > 0) Thread.sleep(600_000);
    }
}
'''

TRACE = r'H [12] \d+\n.*\nZ \d+ 0\n'
SUMMARY = r'events=\d+ end=0 \(every thread ended\)\n.*'
# How such a line begins, and what it writes to standard output or to the file behind its last `>`, whole.
QUICK = (
    (r'\S*elephant trace .*\| \S*elephant curve', r'(\d+ \d+\n)+'),
    (r'\S*elephant trace ', TRACE),
    (r'\S*elephant run .*Hello\.class', r'elephant 1\nelephant 2\nelephant 3\n'),
    (r'\S*elephant verify ', r'verified [1-9]\d*\n'),
    (r'zcat .* \S*elephant replay --semispace 1000000 ', r'semispace capacity=1000000 collections=0 copied=0 freed=0 peak=\d+\n'),
    (r'tools/trace-java ', SUMMARY),
    (r'tools/summary ', SUMMARY),
    (r'tools/sweep ', r'# 12360 bytes live at most, 363936 bytes allocated\n.*'),
    (r'jcmd PID GC\.heap_dump ', r'.*Heap dump file created \[\d+ bytes .*'),
    (r'jcmd PID GC\.class_histogram', r'.*\n +\d+: +\d+ +\d+  \[I .*'),
    (r'java -XX:StartFlightRecording', r'.*Started recording 1\..*'),
    (r'jfr print ', r'jdk\.ObjectAllocationSample \{\n.*objectClass = int\[\].*'),
    (r'tests/against-java/run \S+ Queens', r'1 programs, 8 runs, 0 with another output than under java\n'),
    (r'rt fmt', r''),
    (r'benches/large ', r'bench 1: [\d.]+ seconds, [\d.]+ of the processor, peak \d+ MiB\n'),
)
SLOW = (
    (r'tests/against-java/run ', r'49 programs, \d+ runs, 0 with another output than under java\n'),
    (r'tests/hostile ', r'.*\n\d{3} cases: \d{3} as wanted, 0 not, [01] skipped\n'),
    (r'tests/refused ', r'.*\n22 passed, 0 failed\n'),
    (r'benches/run .*--page', r'\| load +\|.*'),
)
Rule = collections.namedtuple('Rule', 'line writes is_slow')
RULES = [Rule(*row, False) for row in QUICK] + [Rule(*row, True) for row in SLOW]
# The commands that a line takes, by the words in it.
NEEDS = {'java': r'\bjava |against-java', 'javac': r'\bjavac\b|\.java\b|against-java|\bjcmd\b|\bjfr\b|\bjava ', 'cc': r'tests/refused',
         **{name: rf'\b{name}\b' for name in ('gnuplot', 'jcmd', 'jfr', 'pv', 'zcat')}, 'rt': r'^rt '}


def rule_of(line):
    return next((rule for rule in RULES if re.match(rule.line, line)), None)


def missing(line):
    """A command that the line takes and that isn't here, or nothing."""
    return next((name for name, words in NEEDS.items() if re.search(words, line) and not shutil.which(name)), '')
