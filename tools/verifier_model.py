"""What the verifier says of reports of both versions, apart from the program's own code."""
import re

from attestation_model import bytes_of, in_words, mac, request
from file_readers import read_reports
from reference import ending


def metadata_of(key, report):
    """The metadata that a report tells, with the token that its request has to have."""
    if report.version == 1:
        return report.challenge + in_words(*report.bounds, report.exec)
    return request(key, report.challenge, report.bounds, report.count, (report.exec, report.aux))


def right_mac(image, key, report):
    """The MAC that a report has where its code is the image's."""
    code = bytes_of(image, report.bounds[0], report.bounds[1] + 1)
    return mac(key, metadata_of(key, report), code + (report.output or b""))


def with_right_mac(image, key, report):
    return report._replace(mac=right_mac(image, key, report))


def verdict(image, policy, key, number, report):
    """On the report that has this number, from 0: the first that holds."""
    if number >= len(policy.requests):
        return "no-challenge"
    challenge, count = policy.requests[number]
    differences = {
        "version-differs": report.version != policy.version,
        "chal-differs": report.challenge != challenge,
        "count-differs": report.count != count,
        "bounds-differ": report.bounds != policy.bounds,
        "exec-zero": policy.flag == "exec" and not report.exec,
        "aux-zero": policy.flag == "aux" and not report.aux,
    }
    for name, holds in differences.items():
        if holds:
            return name
    return "accept" if report.mac == right_mac(image, key, report) else "mac-differs"


def verdicts(image, policy, key, reports):
    return [verdict(image, policy, key, number, report) for number, report in enumerate(reports)]


def verdict_lines(names):
    return [f"verdict {number} {name}\n".encode() for number, name in enumerate(names, 1)]


def unanswered_line(policy, names):
    """The line of the first request whose report has no verdict, or another than `accept`."""
    for number in range(len(policy.requests)):
        if names[number:number + 1] != ["accept"]:
            return b"unanswered %d\n" % (number + 1)
    return b""


def verify_text(image, policy, key, reports, is_all=False):
    """What `verify` prints, or `verify --all`."""
    names = verdicts(image, policy, key, reports)
    return b"".join(verdict_lines(names)) + (unanswered_line(policy, names) if is_all else b"")


def round_text(play, image, policy, key, is_all=False):
    """What `round` prints of a play with this text, or `round --all`, where no two inputs of one
    digest are found.
    """
    names = verdicts(image, policy, key, read_reports(play))
    lines = iter(verdict_lines(names))
    text = re.sub(rb"^report2 .*\n", lambda line: line[0] + next(lines), play, flags=re.M)
    return text + (unanswered_line(policy, names) if is_all else b"")


def ending_of(text):
    """The exit status and the line on standard error after a text with verdicts, or of an audit."""
    rejected = rb"^verdict \d+ (?!accept$)|^unanswered |^offence "
    return ending(1 if re.search(rejected, text, re.M) else 0)
