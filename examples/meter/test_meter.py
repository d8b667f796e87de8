"""A test of the meter, which finds its fault (docs/python.md)."""
import foldgneiss

SAMPLES = [foldgneiss.Event(5000 * n, "rx", bytes([64 + 2 * n])) for n in range(1, 17)]
RUN = foldgneiss.play("image.hex", SAMPLES, "key.txt", 100000)


def test_first_value():
    assert RUN.sent[0] == 66


def test_no_reset():
    assert RUN.resets == []


def test_a_value_for_each_sample():
    assert len(RUN.sent) == len(SAMPLES)
