"""For pytest: where a test fails, what its devices sent, and the last steps before a reset."""
from typing import Any, Iterator, List, Tuple

from .device import Device, observers
from .limits import MOST_STEPS

LAST_STEPS = 20  # that are shown before a reset
made: List[Device] = []


def sent_text(device: Device) -> str:
    """What was sent, as text where it is some."""
    text = device.sent.decode("latin-1")
    return text if text.isascii() and text.replace("\n", "").isprintable() else device.sent.hex(" ")


def steps_before_reset(device: Device) -> str:
    """The trace lines that end with the first reset."""
    last = device.resets[0].step
    if last >= MOST_STEPS:
        return f"step {last} is past what can be traced"
    return "\n".join(device.trace_lines(last + 1)[-LAST_STEPS:])


def sections_of(device: Device) -> Iterator[Tuple[str, str]]:
    """What there is to show of a device, each with its head."""
    yield f"sent in {device.steps} steps", sent_text(device)
    if device.resets:
        reset = device.resets[0]
        yield f"reset in step {reset.step} by {reset.rule}", steps_before_reset(device)


def pytest_configure(config: Any) -> None:
    observers.append(made.append)


def pytest_unconfigure(config: Any) -> None:
    observers.remove(made.append)


def pytest_runtest_setup(item: Any) -> None:
    made.clear()


def pytest_runtest_logreport(report: Any) -> None:
    if report.failed:
        for device in made:
            report.sections.extend(sections_of(device))
