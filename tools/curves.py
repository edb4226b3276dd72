"""The live bytes of a trace as a picture, stacked by class, from its D lines: exact at each event."""
from collections import defaultdict
from figures import COLOURS, Figure


def bands(trace, top):
    """The names of the bands, and (event, bytes of each band) where that changes: a death shows behind its time."""
    totals = defaultdict(int)
    for thing in trace.objects.values():
        totals[thing.class_name] += thing.size
    kinds = sorted(totals, key=lambda name: (-totals[name], name))
    names = kinds[:top] + ['others'] * (len(kinds) > top)
    place = {name: min(at, len(names) - 1) for at, name in enumerate(kinds)}
    changes = defaultdict(lambda: [0] * len(names))
    for thing in trace.objects.values():
        changes[thing.birth][place[thing.class_name]] += thing.size
        if thing.death is not None:
            changes[thing.death + 1][place[thing.class_name]] -= thing.size
    live, points = [0] * len(names), []
    for event in sorted({*changes, trace.event}):
        live = [a + b for a, b in zip(live, changes[event] if event in changes else [0] * len(names))]
        points.append((event, live))
    return names, points


def drawn(trace, top=5, by_bytes=False):
    """The picture, with so many classes by name, over events or over bytes allocated."""
    names, points = bands(trace, top)
    at = trace.bytes_at if by_bytes else lambda event: event
    figure = Figure(820, 320, 'Live bytes by class')
    panel = figure.panel(76, 16, 550, 250, at(trace.event), max(sum(live) for _, live in points))
    for band in reversed(range(len(names))):
        panel.area([(at(event), sum(live[:band + 1])) for event, live in points], COLOURS[band % len(COLOURS)])
    panel.axes('bytes allocated' if by_bytes else 'event (one bytecode)', 'live bytes')
    figure.legend(645, 24, [name if len(name) <= 22 else '..' + name[-20:] for name in names])
    return figure.text()
