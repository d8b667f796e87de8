"""A reader of value change dumps (IEEE 1364), and what trace and script say of the same wires."""
from peripheral_model import pins_in, received_by, sent_by, timer_flags
from trace_model import flags_of

# The wires of which they say nothing.
REGISTERS = {"sp", "sr", *(f"r{number}" for number in range(4, 16))}


def declarations(tokens):
    """The wires that are declared: by code, their names and widths."""
    wires = {}
    for keyword in tokens:
        words = []
        while (word := next(tokens)) != "$end":
            words.append(word)
        if keyword == "$enddefinitions":
            return wires
        if keyword == "$var":
            kind, width, code, name = words[:4]
            width = int(width)
            if kind != "wire" or code in wires or words[4:] != [f"[{width - 1}:0]"] * (width > 1):
                raise ValueError(f"$var {words}")
            wires[code] = name, width
    raise ValueError("the declarations do not end")


def number(digits, width):
    """The number of a value, or None where nothing drives the wire."""
    if digits == "z":
        return None
    if len(digits) > width:
        raise ValueError(f"{digits} on a wire of {width}")
    return int(digits, 2)


def changes(tokens, wires):
    """The times, each with the values that it changes, by the wires' names."""
    times = []
    for token in tokens:
        if token[0] == "#":
            times.append((int(token[1:]), {}))
        elif token not in ("$dumpvars", "$end"):
            digits, code = (token[1:], next(tokens)) if token[0] == "b" else (token[0], token[1:])
            name, width = wires[code]
            times[-1][1][name] = number(digits, width)
    if any(time >= later for (time, _), (later, _) in zip(times, times[1:])):
        raise ValueError("the times do not ascend")
    return times


def samples(text):
    """The values at each time from 0 to the last: those that were said last."""
    tokens = iter(text.decode().split())
    wires = declarations(tokens)
    values, sampled = {}, []
    for time, changed in changes(tokens, wires):
        sampled += [values] * (time - len(sampled))
        values = {**values, **changed}
        sampled.append(values)
    return sampled


def number_of(text):
    """What a wire has where it tells a text."""
    return int.from_bytes(text.encode(), "big")


def access(name, told, value):
    """The wires of an access of a trace line, and of the value that it read."""
    written = told and told.number
    return {f"{name}_op": told and number_of(told.letter), f"{name}_address": told and told.place,
            f"{name}_data": told and (value if written is None else written)}


def wires_of(line, pins, before):
    """The wires in a step with this trace line and these pins, and with the flags before it."""
    rule = "" if line.rule == "-" else line.rule
    bounds = zip(("er_min", "er_max", "or_min", "or_max"), line.bounds)
    return {"kind": number_of(line.kind), "rule": number_of(rule),
            "pc": line.pc, "irq": line.irq, "asked": line.asked, "fetch_word": line.word,
            "pins": pins, "sent": sent_by(line), "received": received_by(line), **before,
            **dict(bounds), **access("cpu", line.cpu, line.value),
            **access("dma", line.dma, line.dma_value)}


def flags_around(trace):
    """The flags before the first step and after each."""
    after = zip((line.exec for line in trace), flags_of(trace), timer_flags(trace))
    return [{"exec": 0, "aux": 0, "timer_flag": 0},
            *({"exec": told, "aux": aux, "timer_flag": timer} for told, (_, aux), timer in after)]


def samples_of(trace, script):
    """The samples that the waveform of a play has, by its trace and its script."""
    flags = flags_around(trace)
    sampled = [*map(wires_of, trace, pins_in(script, len(trace)), flags)]
    return [*sampled, {**sampled[-1], **flags[-1]}]


def without_registers(sampled):
    return [{name: sample[name] for name in sample.keys() - REGISTERS} for sample in sampled]


def wrong_entry(sampled):
    """The first time at which an interrupt entry does not push below `sp`, or another word than
    `sr`.
    """
    for time, sample in enumerate(sampled):
        if sample["kind"] == number_of("irq") and sample["cpu_op"] == number_of("w"):
            below = (sample["sp"] - sample["cpu_address"]) % 65536
            if below not in (2, 4) or (below == 4 and sample["cpu_data"] != sample["sr"]):
                return time
    return None
