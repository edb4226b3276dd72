"""What a trace comes to, in words and tables. `summary` and `trace-java` print it."""
from collections import defaultdict
from elephant_trace import ENDS

SHARES = (.1, .25, .5, .75, .9, .99)
# Errors that the machine throws where something isn't there.
MISSING = {'java/lang/NoClassDefFoundError', 'java/lang/NoSuchMethodError', 'java/lang/NoSuchFieldError',
           'java/lang/UnsatisfiedLinkError', 'java/lang/AbstractMethodError'}


def warnings(trace):
    for lost in trace.uncaught:
        yield (f'thread {lost.thread} ended by an uncaught {lost.class_name} (object {lost.object}) at event {lost.event}, '
               f'out of {lost.method}')
        if lost.class_name in MISSING:
            yield 'something that the program uses is missing: tools/needs FILE.. says what'
    if trace.end:
        yield f'the run did not come to its end: {ENDS[trace.end]}'


def quantiles(trace):
    """(share, age) of the bytes that died: so much of them lived no longer than this, in bytes allocated."""
    ages = sorted((trace.age(thing), thing.size) for thing in trace.objects.values() if thing.death is not None)
    total, run, left = sum(size for _, size in ages), 0, list(SHARES)
    for age, size in ages:
        run += size
        while left and run >= left[0] * total:
            yield left.pop(0), age


def told(trace, top):
    yield f'events={trace.event} end={trace.end} ({ENDS[trace.end]})'
    died = [thing for thing in trace.objects.values() if thing.death is not None]
    yield (f'objects={len(trace.objects)} bytes={trace.allocated} died={len(died)} writes={trace.counts["U"]} '
           f'calls={trace.counts["M"]} threads={len(trace.threads)} flushes={trace.counts["F"]}')
    for warning in warnings(trace):
        yield f'WARNING: {warning}'
    for title, key in (('class', 'class_name'), ('method that allocates', 'site')):
        table = defaultdict(lambda: [0, 0])
        for thing in trace.objects.values():
            row = table[getattr(thing, key) or '(the machine)']
            row[0] += 1
            row[1] += thing.size
        yield f'\n{"objects":>9} {"bytes":>11}  {title}'
        for name, (count, size) in sorted(table.items(), key=lambda item: (-item[1][1], item[0]))[:top]:
            yield f'{count:9} {size:11}  {name}'
    yield '\nof the bytes that died, lived for at most so many bytes allocated:'
    for share, age in quantiles(trace):
        yield f'{share:9.0%} {age:11}'
