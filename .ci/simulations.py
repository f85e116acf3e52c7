"""Looks whether the script that `ghost simulate` writes can be run: it has no fault, no event is refused, the enclave stands, and each tick
has its comment, the ticks in order. The same workload has to give the same script once more."""
import re


def differences(written, again, run):
    """In what a simulation's script is not as it is promised."""
    found = [] if written == again else ["the same seed gives another script"]
    replies = run(written).decode()
    if replies.startswith("fault line"):
        found.append(replies.strip())
    found += [f"a run has the reply: {line}" for line in replies.splitlines() if re.match(r"refused|torn", line)][:3]
    ticks = [int(number) for number in re.findall(r"^# tick (\d+)$", written.decode(), re.M)]
    if ticks != list(range(len(ticks))) or not ticks:
        found.append("the ticks are not in order")
    return found
