"""Computes once more what `ghost compare` writes of a workload, from what `ghost simulate`, `ghost latency` and `ghost timehist` write of it
under each policy and by each seed."""
import csv
import io
import json

# What is measured of a class, and of the machine.
OF_CLASS = ["bursts", "waited p50", "waited p90", "waited p99", "waited most", "ran", "preempted", "migrated", "stale", "displaced", "worst share"]
OF_MACHINE = ["idle wanted"]
# Each of these ends a burst.
ENDINGS = ("blocked", "yielded", "died")


def options(words, name):
    """The values of an option that may be given more than once."""
    return [value for option, value in zip(words, words[1:]) if option == name]


def objects(text):
    return [json.loads(line) for line in text.decode().splitlines()]


def of_class(number, turns, rows):
    """What is measured of a class, or nothing if no thread of it was created."""
    own = [row for row in rows if row.get("class", -1) == number]
    threads = [row for row in own if "ran" in row and row["tid"] is not None]
    if not threads:
        return {}
    (account,) = [row for row in own if "ran" in row and row["tid"] is None]
    landings = {row["outcome"]: row["landings"] for row in own if "landings" in row and row["tid"] is None}
    waits = account["waits"]["ticks"] or {}
    ran = [row["ran"]["ticks"] for row in threads]
    measured = {
        "bursts": sum(turn["class"] == number and turn["ended"] in ENDINGS for turn in turns),
        **{f"waited {part}": waits.get(part) for part in ("p50", "p90", "p99", "most")},
        "ran": account["ran"]["ticks"],
        "preempted": account["preempted"],
        "migrated": account["migrated"],
        "stale": landings.get("stale", 0),
        "displaced": landings.get("displaced", 0),
        "worst share": 100 * min(ran) * len(ran) // sum(ran) if sum(ran) else None,
    }
    return {(number, name): measured[name] for name in OF_CLASS}


def measured_of(script, run):
    """What is measured of a simulation, by its script."""
    turns, rows = objects(run(["timehist", "--json"], script)), objects(run(["latency", "--json", "--threads"], script))
    wanted = sum(row["wanted"]["ticks"] for row in rows if "wanted" in row)
    return {**of_class(0, turns, rows), **of_class(1, turns, rows), (None, "idle wanted"): wanted}


def spread(values):
    """The least of some numbers, their median by the nearest rank, and the most."""
    rising = sorted(value for value in values if value is not None)
    return (rising[0], rising[len(rising) - len(rising) // 2 - 1], rising[-1]) if rising else (None, None, None)


def header_policy(script):
    """The words of the policy in a script's header."""
    (header,) = [line for line in script.decode().splitlines() if line.startswith("cpus")]
    return header.partition(" policy ")[2] or "first"


def compared(workload, words, run):
    """The rows: policy, class, measure, how many seeds, and the least, the median and the most. Those of a measure stand together."""
    ticks = [word for value in options(words, "--ticks") for word in ("--ticks", value)]
    measured = {}
    for policy in options(words, "--policy") or [None]:
        named = ["--policy", policy] if policy else []
        scripts = [run(["simulate", *named, "--seed", seed, *ticks], workload) for seed in options(words, "--seed") or ["0"]]
        measured[header_policy(scripts[0])] = [measured_of(script, run) for script in scripts]
    keys = [(number, name) for number in (0, 1) for name in OF_CLASS] + [(None, name) for name in OF_MACHINE]
    there = [key for key in keys if any(key in one for runs in measured.values() for one in runs)]
    return [(policy, *key, len(runs), *spread([one.get(key) for one in runs])) for key in there for policy, runs in measured.items()]


def as_json(rows):
    names = ("policy", "class", "measure", "seeds", "least", "median", "most")
    return "".join(json.dumps(dict(zip(names, row)), sort_keys=True, separators=(",", ":")) + "\n" for row in rows)


def as_csv(rows):
    text = io.StringIO()
    writer = csv.writer(text, lineterminator="\n")
    writer.writerow(("policy", "class", "measure", "seeds", "median", "least", "most"))
    shown = lambda value: "" if value is None else value
    for policy, number, name, seeds, least, median, most in rows:
        writer.writerow((policy, shown(number), name, seeds, shown(median), shown(least), shown(most)))
    return text.getvalue()


def columns(*cells):
    """Words at the right end of columns, each with its places."""
    return "".join(f" {word:>{places}}" for places, word in cells) + "\n"


def as_lines(rows):
    """The table as columns: one for each policy, as wide as its name, or three if there are several seeds."""
    policies = list(dict.fromkeys(row[0] for row in rows))
    several = rows[0][3] > 1
    shown = lambda value: "-" if value is None else str(value)
    places = {policy: 38 if several else min(max(12, len(policy)), 38) for policy in policies}
    of_row = lambda row: [(12, shown(value)) for value in (row[5], row[4], row[6])] if several else [(places[row[0]], shown(row[5]))]
    cells = {row[:3]: of_row(row) for row in rows}
    text = columns((5, "class"), (12, "measure"), *[(places[policy], policy) for policy in policies])
    if several:
        text += columns((5, ""), (12, ""), *[(12, name) for _ in policies for name in ("median", "least", "most")])
    for number, name in dict.fromkeys(row[1:3] for row in rows):
        text += columns((5, shown(number)), (12, name), *[cell for policy in policies for cell in cells[policy, number, name]])
    return text


def differences(written, workload, words, run):
    """In what a comparison is not what its simulations come to."""
    rows = compared(workload, words, run)
    wanted = as_json(rows) if "--json" in words else as_csv(rows) if "--csv" in words else as_lines(rows)
    pairs = zip(wanted.splitlines() + [""] * 9, written.decode().splitlines())
    found = [f"{line} stands where {should} should" for should, line in pairs if should != line][:3]
    return found or ([] if wanted == written.decode() else ["the comparison has another length"])
