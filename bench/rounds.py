"""Programs timed beside each other: user and system time, the least of some rounds in which they take turns."""
import os, resource, subprocess


def timed(command, source, target, limit):
    """The seconds that a call took which read `source` and printed to `target`, and how it ended: "done", "limit" where
    it was stopped after `limit` seconds of processor time, or "fails"."""
    with open(source) as given, open(target, "w") as out:
        run = subprocess.Popen(command, stdin=given, stdout=out, stderr=subprocess.DEVNULL)
        resource.prlimit(run.pid, resource.RLIMIT_CPU, (limit, limit))
        _, status, usage = os.wait4(run.pid, 0)
    run.returncode = os.waitstatus_to_exitcode(status)
    seconds = usage.ru_utime + usage.ru_stime
    if run.returncode == 0:
        return seconds, "done"
    return seconds, "limit" if seconds >= limit - 1 else "fails"


def least(calls, rounds, limit=600):
    """For each of the calls, which are a command, its source and its target: the least of its seconds, and how it ended.
    One that does not end with "done" is not called again."""
    ended = [None] * len(calls)
    for _ in range(rounds):
        for i, call in enumerate(calls):
            if ended[i] and ended[i][1] != "done":
                continue
            seconds, how = timed(*call, limit)
            before = ended[i][0] if ended[i] else seconds
            ended[i] = (min(before, seconds) if how == "done" else seconds, how)
    return ended


def read_listing(path):
    """How many rows are lines or equations, and the others. Where lrs goes over to longer numbers it begins again."""
    with open(path) as text:
        words = [line.split() for line in text]
    start = len(words) - words[::-1].index(["begin"]) + 1
    end = words.index(["end"], start)
    linear = next((int(w[1]) for w in words[start - 2::-1] if w[:1] == ["linearity"]), 0)
    return linear, [tuple(w) for w in words[start:end]][linear:]
