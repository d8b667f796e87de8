"""Which bytes of a script found the queue of the serial port full, by the trace of a run."""
import heapq
import itertools
import operator
import re
import subprocess

QUEUE = 64  # bytes that can wait
MOST_STEPS = 1000000  # that are looked at, which takes a second
# A step in which the processor takes a byte. (The DMA engine reaches no peripheral.)
TAKING = re.compile(rb"t [0-9]+ [a-z]+ [0-9a-f]{4} [frb]0074 ")
ARRIVAL, TAKEN, RESET = range(3)  # what concerns the queue in a step, in this order


def arrivals(events, steps):
    """How many bytes arrive, for each of the first steps in which some do."""
    for step, group in itertools.groupby(events, operator.attrgetter("step")):
        count = sum(len(event.arrived) for event in group)
        if count and step < steps:
            yield step, ARRIVAL, count


def last_full(events, steps):
    """The last step in which a byte finds the queue full if none is taken before; None if none."""
    resets = ((event.step, RESET, 0) for event in events if event.kind == "reset")
    full = [step for step, _ in dropped(heapq.merge(arrivals(events, steps), resets))]
    return full[-1] if full else None


def dropped(sights):
    """Pairs of a step and how many bytes are dropped in it, of what concerns the queue."""
    waiting = 0
    for step, group in itertools.groupby(sights, operator.itemgetter(0)):
        counts = {kind: count for _, kind, count in group}
        waiting += counts.get(ARRIVAL, 0)
        if RESET in counts:  # (what arrives in its step is lost too)
            waiting = 0
        elif waiting > QUEUE:
            yield step, waiting - QUEUE
            waiting = QUEUE
        if TAKEN in counts and waiting:
            waiting -= 1


def sights_of(trace):
    """Where a byte is taken or the device resets, of the lines of a trace."""
    for line in trace:
        if not line.endswith(b" -\n"):
            yield int(line.split()[1]), RESET, 0
        elif TAKING.match(line):
            yield int(line.split()[1]), TAKEN, 0


def dropped_in_run(trace, events, steps):
    """What is dropped in so many steps of the run that the command traces, whose script has these
    events. The run is traced as far as bytes may be dropped.
    """
    last = last_full(events, min(steps, MOST_STEPS))
    if last is None:
        return []
    with subprocess.Popen([*trace, str(last + 1)], stdout=subprocess.PIPE,
                          stderr=subprocess.DEVNULL) as run:
        return [*dropped(heapq.merge(arrivals(events, last + 1), sights_of(run.stdout)))]
