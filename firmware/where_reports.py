"""What `where` writes of a walk: lines, and the formats of callgrind and lcov."""
import collections
import os
import sys

from where_elf import fail, position, relative

OTHER_KINDS = {b"boot": "boot", b"rom": "the attestation ROM", b"idle": "asleep",
               b"irq": "interrupt"}


class Lines:
    """The text of units, one line each; `depth` is how far it stands in."""

    def __init__(self):
        self.texts = {}  # of instructions, by place and depth

    def of_unit(self, unit, place, depth):
        """With the instruction, and function, file and line behind it."""
        kind = unit.kind
        if kind == b"cpu":
            text = self.texts.get((place, depth))
            if text is None:
                text = self.texts[place, depth] = instruction(place, depth)
        else:
            steps = f", {unit.steps} steps" if unit.steps > 3 else ""
            pc = "" if kind in (b"boot", b"rom") else unit.pc.decode()
            text = padded(pc, OTHER_KINDS[kind] + steps, place if pc else None, depth)
        return f"{unit.step.decode():>8}  {text}\n" + self.of_reset(unit)

    def of_change(self, unit, place, depth):
        """Where a function begins, or goes on."""
        what = "interrupt: " if unit.kind == b"irq" else ""
        where = f"{place.function.name}  {position(place)}".rstrip()
        return f"{unit.step.decode():>8}  {'  ' * depth}{what}{where}\n" + self.of_reset(unit)

    def of_reset(self, unit):
        """The refused step, where the unit ends with one."""
        if unit.rule is None:
            return ""
        step = int(unit.step) + unit.steps - 1
        return f"{step:>8}  reset {unit.rule.decode()} at {unit.access.decode()}\n"


def padded(pc, text, place, depth):
    return f"{'    ' * depth}{pc:<4}  {text:<26}  {place.shown() if place else ''}".rstrip()


def instruction(place, depth):
    return padded(f"{place.address:04x}", place.text, place, depth)


def units_of(walk, file):
    """Each unit with its place, and how many handlers it is in."""
    for unit, place in walk.go(file):
        yield unit, place, walk.handlers


def changes_of(walk, file):
    """The units in which the function changes, with how many functions it is in; and the resets."""
    before = None
    for unit, place in walk.go(file):
        if place.function is not before or unit.kind != b"cpu" or unit.rule:
            if unit.kind != b"idle":
                yield unit, place, max(len(walk.frames) - 1, 0)
            before = place.function


def before_resets(shown, most):
    """Of these the last ones before each reset, in lists."""
    kept = collections.deque(maxlen=most)
    for one in shown:
        kept.append(one)
        if one[0].rule is not None:
            yield [*kept]
            kept.clear()


def resets_of(walk, shown, most, text_of):
    """The last ones before a reset, where it is the first by its rule at its place; the others are
    counted.
    """
    again = {}
    for group in before_resets(shown, most):
        unit = group[-1][0]
        reset = f"{unit.rule.decode()} at {unit.pc.decode()}"
        if reset not in again:
            yield "\n" * bool(again) + "".join(text_of(*one) for one in group)
        again[reset] = again.get(reset, -1) + 1
    for reset, number in again.items():
        if number:
            yield f"\nreset {reset}: {number} more\n"
    if not again:
        steps = sum(place.steps + place.idle for place in walk.all_places())
        yield f"no reset in {steps} steps\n"


def lines_of(walk, file, calls, before_reset):
    """`where lines`, in pieces."""
    shown = changes_of(walk, file) if calls else units_of(walk, file)
    text_of = Lines().of_change if calls else Lines().of_unit
    if before_reset:
        return resets_of(walk, shown, before_reset, text_of)
    return (text_of(*one) for one in shown)


def by_function(walk):
    """Costs by file and line of each function that ran."""
    costs = {}
    for place in walk.all_places():
        if place.count or place.steps or place.idle:
            lines = costs.setdefault(place.function, {})
            cost = lines.setdefault((place.file or place.function.file, place.line), [0, 0, 0])
            for at, more in enumerate((place.steps, place.count, place.idle)):
                cost[at] += more
    return costs


def calls_by_function(walk):
    """Number and costs of the calls by the line of the call and what was called, of each function.
    """
    calls = {}
    for (site, callee), numbers in walk.calls.items():
        lines = calls.setdefault(site.function, {})
        line = lines.setdefault((site.file or site.function.file, site.line, callee), [0] * 4)
        for at, more in enumerate(numbers):
            line[at] += more
    return calls


def source(path):
    return relative(path) or "???"  # as callgrind itself has it


def in_order(row):
    """Where a row stands among others, wherever the kit lies."""
    path, line = row[0][:2]
    return relative(path), line


def rows_of(costs, calls):
    """The rows of a function, each with its file."""
    for (path, line), (steps, instructions, asleep) in sorted(costs.items(), key=in_order):
        yield path, f"{line} {steps} {instructions} {asleep}\n"
    for (path, line, callee), (number, steps, instructions, asleep) in sorted(
            calls.items(), key=lambda one: (*in_order(one), one[0][2].name)):
        yield path, (f"cfi={source(callee.file)}\ncfn={callee.name}\n"
                     f"calls={number} {callee.line}\n{line} {steps} {instructions} {asleep}\n")


def profile_of(walk, elf):
    """The profile, in callgrind's format."""
    yield (f"# callgrind format\nversion: 1\ncreator: foldgneiss where\ncmd: {elf}\n"
           "positions: line\n"
           "event: Steps : bus steps\nevent: Instructions : instructions\n"
           "event: Asleep : bus steps asleep\nevents: Steps Instructions Asleep\n")
    costs, calls = by_function(walk), calls_by_function(walk)
    for function in sorted({*costs, *calls},
                           key=lambda one: (relative(one.file), one.line, one.name)):
        yield f"\nfl={source(function.file)}\nfn={function.name}\n"
        file = function.file
        for path, text in rows_of(costs.get(function, {}), calls.get(function, {})):
            if path != file:
                yield f"{'fe' if path == function.file else 'fi'}={source(path)}\n"
                file = path
            yield text
    places = walk.all_places()
    yield (f"\ntotals: {sum(place.steps for place in places)} "
           f"{sum(place.count for place in places)} {sum(place.idle for place in places)}\n")


def inlined_calls(walk):
    """Each call that was inlined, and its first instruction, which tells how often it was made."""
    firsts = {}
    for place in walk.places.values():
        for depth in range(len(place.inlined)):
            copy = place.function, place.inlined[depth:]
            if copy not in firsts or place.address < firsts[copy].address:
                firsts[copy] = place
    return [(inlined, place) for (_, inlined), place in firsts.items()]


def line_counts(walk):
    """How often each line of each file ran: of its instructions in a copy of the code, which an
    inlined function has at each call, the most; and this of all copies together.
    """
    most = {}

    def add(file, line, place, inlined):
        if file and line:
            copy = file, line, place.function, inlined
            most[copy] = max(most.get(copy, 0), place.count)
    for place in walk.places.values():
        add(place.file, place.line, place, place.inlined)
    for (call, *outer), place in inlined_calls(walk):
        add(call.call_file, call.call_line, place, tuple(outer))
    counts = {}
    for (file, line, _, _), count in most.items():
        lines = counts.setdefault(file, {})
        lines[line] = lines.get(line, 0) + count
    return counts


def function_counts(walk):
    """How often each function of each file was entered. An inlined one is entered where its first
    instruction runs.
    """
    counts = {}

    def add(one, number):
        if one.file:
            key = one.file, one.line, one.name
            counts[key] = counts.get(key, 0) + number
    for function in walk.firmware.functions:
        add(function, function.entries)
    for inlined, place in inlined_calls(walk):
        add(inlined[0], place.count)
    return counts


def coverage_of(walk):
    """The coverage, in lcov's format, of the files that are there."""
    functions, counts = function_counts(walk), line_counts(walk)
    for file in sorted(counts):
        if not os.path.isfile(file):
            print(f"where: there is no {relative(file)}: its lines are left out", file=sys.stderr)
            del counts[file]
    if not counts:
        fail("no line of the ELF lies in a file that is there")
    for file, lines in sorted(counts.items(), key=lambda row: relative(row[0])):
        own = sorted((line, name, count) for (path, line, name), count in functions.items()
                     if path == file)
        yield f"TN:\nSF:{os.path.abspath(file)}\n"
        yield "".join(f"FN:{line},{name}\n" for line, name, _ in own)
        yield "".join(f"FNDA:{count},{name}\n" for _, name, count in own)
        yield f"FNF:{len(own)}\nFNH:{sum(count > 0 for _, _, count in own)}\n"
        yield "".join(f"DA:{line},{count}\n" for line, count in sorted(lines.items()))
        yield f"LF:{len(lines)}\nLH:{sum(count > 0 for count in lines.values())}\nend_of_record\n"


def stack_name(walk, top):
    """The symbol at which a stack begins."""
    names = sorted(symbol.name for symbol in walk.firmware.symbols if symbol.place == top)
    return names[-1] if names else f"{top:04x}"


def stack_of(walk):
    """The stacks, and what of them each function took."""
    yield f"{'stack':<20} {'from':>5} {'lowest':>6} {'bytes':>6} {'left':>6}  down to\n"
    for stack in sorted(walk.stacks.values(), key=lambda one: -one.top):
        end, why = walk.firmware.end_of_data_below(stack.top)
        lowest = f"lowest in {stack.place.shown()}" if stack.place else "not used"
        left = stack.lowest - end
        yield (f"{stack_name(walk, stack.top):<20} {stack.top:>5x} {stack.lowest:>6x} "
               f"{stack.top - stack.lowest:>6} {max(left, 0):>6}  {end:04x}, {why}\n"
               f"{'':<20} {lowest}\n")
        if left < 0:
            yield f"{'':<20} OVER THE DATA by {-left} bytes\n"
    yield f"\n{'function':<26} {'entered':>8} {'own':>6} {'all':>6} {'lowest':>6}  where\n"
    for function, (own, everything, lowest) in sorted(
            walk.used.items(), key=lambda one: (-one[1][1], one[0].name)):
        yield (f"{function.name:<26} {function.entries:>8} {own:>6} {everything:>6} "
               f"{lowest:>6x}  {position(function)}".rstrip() + "\n")
    missed = sum(walk.unknown.values())
    if missed:
        first = max(walk.unknown, key=walk.unknown.get)
        yield f"\nSP was not known in {missed} instructions, most of them in {first.name}.\n"
