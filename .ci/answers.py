"""Looks whether the answers of `ghost serve` are those of a run: each line has one, which an empty line ends, and without the lines that
have a fault the script runs to just the lines that were answered. With `--explain` the reasons have to be those of `ghost explain`."""


def lines_of(script):
    """The lines of a script. What stands behind the last newline is one too, unless it is empty."""
    lines = script.split(b"\n")
    return lines if lines[-1] else lines[:-1]


def answers_of(written):
    """The answers, each a list of lines, and the lines that no empty one ends."""
    answers, lines = [], []
    for line in written.split(b"\n")[:-1]:
        if line:
            lines.append(line)
        else:
            answers.append(lines)
            lines = []
    return answers, lines


def is_fault(answer):
    """Whether an answer says that its line has a fault."""
    return len(answer) == 1 and answer[0].startswith(b"fault line ")


def is_reason(line):
    """Whether a line of an answer says why."""
    return line.startswith(b"  ")


def reasons_of(script, answers, run):
    """In what reasons are not those of an explanation. In a script with a fault lines have other numbers there, so that it isn't looked at."""
    if any(map(is_fault, answers)):
        return []
    told = [line for line in run(["explain"], script).splitlines() if not line.startswith((b"line ", b"  entry ", b"  entries "))]
    return [] if told == [line for answer in answers for line in answer] else ["an explanation says something else"]


def differences(written, script, words, run):
    """In what the answers to the lines of a script are not those of a run of the lines that have no fault."""
    given, (answers, rest) = lines_of(script), answers_of(written)
    wrong = reasons_of(script, answers, run) if "--explain" in words else []
    answers = [[line for line in answer if not is_reason(line)] for answer in answers]
    if len(answers) != len(given) or rest:
        return [f"{len(answers)} answers to {len(given)} lines"]
    found = wrong
    for number, answer in enumerate(answers, 1):
        if is_fault(answer) and int(answer[0].split()[2]) != number:
            found.append(f"the fault of line {number} has another number: {answer[0].decode()}")
    faultless = [line for line, answer in zip(given, answers) if line.strip(b" ") and not is_fault(answer)]
    answered = b"".join(line + b"\n" for answer in answers if not is_fault(answer) for line in answer)
    wanted = run(["run"], b"".join(line + b"\n" for line in faultless))
    if wanted != answered and not (wanted.startswith(b"fault line") and not answered):
        found.append(f"a run of the lines without a fault writes something else: {wanted[:60]!r}")
    return found
