"""Trials of the verifier's side: requests, verdicts, and rounds."""
import re

import attestation_model
import verifier_model
from readers import READERS
from reference import ALL, WITH_ALL
from sample_files import read

NO_EXEC, NO_AUX, NEITHER = {"exec": 0}, {"aux": 0}, {"exec": 0, "aux": 0}
OTHER_MAC, OTHER_CHALLENGE = {"mac": bytes(32)}, {"challenge": bytes(32)}
OTHER_PLACES = {"bounds": [0xC040, 0xC046, 0x0302, 0x0302]}

# What of a policy is other than what the report of the example `round` meets, what of the report,
# in which both flags are 1, is other, and the verdict: the first that holds.
VERDICTS = (
    ({}, {}, "accept"),
    ({}, NO_AUX, "accept"),
    ({"flag": "aux"}, {}, "accept"),
    ({"flag": "aux"}, NO_EXEC, "accept"),
    ({"flag": "plain"}, {}, "accept"),
    ({"flag": "plain"}, NO_EXEC, "accept"),
    ({"flag": "plain"}, NEITHER, "accept"),
    ({}, OTHER_MAC, "mac-differs"),
    ({"flag": "plain"}, {**NEITHER, **OTHER_MAC}, "mac-differs"),
    ({"flag": "aux"}, NO_AUX, "aux-zero"),
    ({"flag": "aux"}, {**NEITHER, **OTHER_MAC}, "aux-zero"),
    ({}, NO_EXEC, "exec-zero"),
    ({}, {**NEITHER, **OTHER_MAC}, "exec-zero"),
    (OTHER_PLACES, {}, "bounds-differ"),
    (OTHER_PLACES, {**NO_EXEC, **OTHER_MAC}, "bounds-differ"),
    ({}, {"count": 2}, "count-differs"),
    (OTHER_PLACES, {**NO_EXEC, "count": 0}, "count-differs"),
    ({}, OTHER_CHALLENGE, "chal-differs"),
    (OTHER_PLACES, {**NO_EXEC, **OTHER_CHALLENGE, "count": 2}, "chal-differs"),
    ({}, {"version": 1}, "version-differs"),
    (OTHER_PLACES, {**NO_EXEC, **OTHER_CHALLENGE, "version": 1}, "version-differs"),
    ({"version": 1}, {}, "version-differs"),
    ({"version": 1, "requests": []}, NO_EXEC, "no-challenge"),
    ({"requests": []}, OTHER_MAC, "no-challenge"),
)
# Both of version 1, which has neither counters nor a second flag.
VERDICTS_ONE = (
    ({}, {}, "accept"),
    ({}, OTHER_MAC, "mac-differs"),
    ({}, NO_EXEC, "exec-zero"),
    # (bounds that are valid beside the metadata of version 1 alone)
    ({"bounds": [0xC040, 0xC046, 0x026A, 0x028E]}, NO_EXEC, "bounds-differ"),
    (OTHER_PLACES, OTHER_CHALLENGE, "chal-differs"),
    ({"requests": []}, {}, "no-challenge"),
)

# How many requests there are, the reports, of which x answers none, their verdicts, and the number
# of the first request that is not answered.
NAMES = {"a": "accept", "c": "chal-differs", "n": "no-challenge"}
ANSWERS = (
    (3, "012", "aaa", None), (3, "01", "aa", 3), (3, "0", "a", 2), (3, "", "", 1),
    (3, "x12", "caa", 1), (3, "0x2", "aca", 2), (3, "01x", "aac", 3), (3, "0x", "ac", 2),
    (3, "12", "cc", 1), (2, "0x1", "acn", 2), (1, "012", "ann", None), (1, "", "", 1),
    (0, "012", "nnn", None), (0, "", "", None),
)


def prints_verdicts(trial, text, *words):
    """A call that prints this text with verdicts, and ends as they say."""
    status, line = verifier_model.ending_of(text)
    trial.prints(text, *words, status=status, line=line)


def with_all(words):
    """The same call with `--all`."""
    return words[0], ALL, *words[1:]


def request_lines(trial, files):
    """The lines of requests, and words that spell none."""
    key, challenge = files.round.value("key"), bytes(range(0xE0, 0x100))
    digits = challenge.hex()
    for count, counter in ((1, "1"), (12, "0000000012"), (4294967295, "4294967295")):
        line = attestation_model.request_line(key, challenge, count)
        for chal in (digits, digits.upper()):
            trial.prints(line, *files.words_of_round("request", chal=chal, counter=counter))
    for chal in ("", digits[1:], digits[2:], f"{digits}0", f"{digits}00", f"{digits[1:]}g",
                 f" {digits[1:]}", f"0x{digits[2:]}"):
        trial.refuses(2, *files.words_of_round("request", chal=chal))
    for counter in ("", "0", "-1", "+1", "4294967296", "00000000001", "0x1"):
        # (the words are judged before the key is looked for)
        trial.refuses(2, *files.words_of_round("request", key=files["none"], counter=counter))
    words = files.words_of_round("request")
    trial.refuses(2, *words[:-1])
    trial.refuses(2, *words, "1")
    trial.refuses(3, *files.words_of_round("request", key=files["none"]))
    trial.refuses(4, *files.words_of_round("request", key=files.folder))


def verify(trial, files):
    """The verdicts on one report, by each policy of the tables and by MACs of something else. With
    `--all` the one request of the policy is answered by an `accept`.
    """
    def verdict(name, policy, report):
        text = f"verdict 1 {name}\n".encode()
        unanswered = b"" if name in ("accept", "no-challenge") else b"unanswered 1\n"
        words = files.words_of_round(
            "verify", policy=files.policy_with(**policy),
            reports=files.add("reports-with", files.report_with(**report)))
        prints_verdicts(trial, text, *words)
        prints_verdicts(trial, text + unanswered, *with_all(words))

    for policy, report, name in VERDICTS:
        verdict(name, policy, report)
    for policy, report, name in VERDICTS_ONE:
        verdict(name, {**policy, "version": 1}, {**report, "version": 1})
    for report in (NO_EXEC, NO_AUX, {"output": bytes(2)}):
        verdict("mac-differs", {"flag": "plain"}, {**report, "mac": files.report.mac})


def report_files(trial, files):
    """Files of several reports and of none, and the order in which files are refused."""
    def verdicts(names, **others):
        prints_verdicts(trial, b"".join(verifier_model.verdict_lines(names)),
                        *files.words_of_round("verify", **others))

    verdicts(["accept"], reports=files["reports-among"])
    verdicts([], reports=files["empty"])
    # Each answers the request of its number.
    challenge = files.policy.requests[0][0]
    requests = [(challenge, 1), (bytes(32), 1), (challenge, 2), (challenge, 3)]
    answers = [files.report_with(), files.report_with(version=1), files.report_with(count=2)]
    verdicts(["accept", "version-differs", "accept", "count-differs", "no-challenge"],
             policy=files.policy_with(requests=requests),
             reports=files.add("reports-with", b"".join(answers + answers[2:] * 2)))
    for kind in ("policy", "reports"):
        trial.refuses(3, *files.words_of_round("verify", **{kind: files["none"]}))
    trial.refuses(4, *files.words_of_round("verify", reports=files.folder))
    trial.finds("policy", "3: Missing", *files.words_of_round(
        "verify", policy=files["policy-short"], reports=files["reports-cut"]))
    trial.refuses(2, *files.words_of_round("verify")[:-1])


def unanswered(trial, files):
    """With `--all` the first request whose report is absent or not accepted, in both versions."""
    challenges = [bytes([number]) * 32 for number in range(1, 4)]
    for version in (1, 2):
        reports = {str(number): files.report_with(version=version, challenge=challenge)
                   for number, challenge in enumerate(challenges)}
        reports["x"] = files.report_with(version=version, challenge=bytes(32))
        for asked, given, verdicts, number in ANSWERS:
            requests = [(challenge, files.report.count) for challenge in challenges[:asked]]
            words = files.words_of_round(
                "verify", policy=files.policy_with(version=version, requests=requests),
                reports=files.add("reports-with", b"".join(reports[name] for name in given)))
            text = b"".join(verifier_model.verdict_lines(NAMES[name] for name in verdicts))
            prints_verdicts(trial, text, *words)
            line = b"unanswered %d\n" % number if number else b""
            prints_verdicts(trial, text + line, *with_all(words))


def option_words(trial, files):
    """`--all` stands in front of the other arguments, once, and behind no other command."""
    for command in WITH_ALL:
        words = files.words_of_round(command)
        trial.refuses(2, *with_all(words)[:-1])
        trial.refuses(2, *with_all(with_all(words)))
        trial.refuses(2, *words, ALL)
        trial.refuses(2, words[0], words[1], ALL, *words[2:])
        for option in ("--al", "--all ", "--ALL", "-all", "all", ""):
            trial.refuses(2, words[0], option, *words[1:])
    for words in files.each_command():
        if words[0] not in WITH_ALL:
            trial.refuses(2, *with_all(words))


def rounds(trial, files):
    """What the example's round prints, by its own policy and by those of the table; what it prints
    is a file of reports.
    """
    example = files.round
    prints_verdicts(trial, example.text, *example.words("round"))
    play = re.sub(rb"^verdict .*\n", b"", example.text, flags=re.M)
    for changes, _, _ in VERDICTS:
        name = files.policy_with(**changes)
        for option in ((), (ALL,)):
            text = verifier_model.round_text(
                play, example.value("image"), READERS["policy"](read(name)), example.value("key"),
                bool(option))
            prints_verdicts(trial, text, *example.words("round", *option, policy=name))
    # (before its report, and a second request)
    end = trial.expect(0, "", *example.words("round", steps="5"))
    prints_verdicts(trial, end + b"unanswered 1\n", *example.words("round", ALL, steps="5"))
    two = files.policy_with(requests=[*files.policy.requests, (bytes(32), 2)])
    prints_verdicts(trial, example.text + b"unanswered 2\n",
                    *example.words("round", ALL, policy=two))
    prints_verdicts(trial, b"verdict 1 accept\n",
                    *files.words_of_round("verify", reports=files.add("printed", example.text)))
    trial.refuses(2, *example.words("round")[:-1])
    trial.refuses(3, *example.words("round", policy=files["none"]))
