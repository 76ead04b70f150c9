"""What the ledger of a run tells of its jobs, and how busy the machine was meanwhile."""
import re
from dataclasses import dataclass


@dataclass
class Reply:
    """A recorded reply: the key of its job, its bytes, the bases that it visited, and the keys that it gives back."""
    key: bytes
    size: int
    bases: int
    back: list


def read_ledger(path):
    """The root of a ledger, and its replies."""
    root, replies = None, []
    with open(path, "rb") as file:
        while file.read(1) == b"\xf5":
            payload = file.read(int(file.read(14)))
            if root is None:
                root = re.search(rb"\nroot ([^\n]*)", payload).group(1)
            else:
                bases = int(payload[payload.rindex(b" "):])
                replies.append(Reply(payload[6:payload.index(b"\n")], len(payload), bases, re.findall(rb"\njob ([^\n]*)", payload)))
    return root, replies


def stolen_time():
    """The time that the host of a virtual machine took from its processors, and that of all processors, in one unit."""
    with open("/proc/stat") as stat:
        times = [int(word) for word in stat.readline().split()[1:9]]
    return times[7], sum(times)


def stolen(before, after):
    """The part of the processors' time that the host took between two answers of `stolen_time`."""
    return (after[0] - before[0]) / max(1, after[1] - before[1])
