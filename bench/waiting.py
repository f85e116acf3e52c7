"""How many messages wait over time: the turns of watched runs, the numbers of a table, and a picture."""
import math
import statistics
from typing import NamedTuple

# Where a panel of the picture is, how large it is, and how far it is from the next.
LEFT, TOP, WIDTH, HEIGHT, STEP = 64, 78, 720, 120, 180
# The counts of waiting messages that have a line, on a scale of logarithms. The last one is the top.
MARKS = 0, 10, 100, 1_000, 10_000, 100_000
STYLE = (
    ".paper{fill:#fff}.ink{fill:#0f172a}.soft{fill:#475569;font-size:11px}.end{text-anchor:end}.middle{text-anchor:middle}"
    ".grid{stroke:#e2e8f0}.range{stroke:#93c5fd}.median{fill:#1d4ed8}"
    "@media(prefers-color-scheme:dark){.paper{fill:#0f172a}.ink{fill:#f1f5f9}.soft{fill:#cbd5e1}"
    ".grid{stroke:#334155}.range{stroke:#1e40af}.median{fill:#bfdbfe}}"
)
HEADS = "Lists", "Milliseconds", "Messages", "Turns", "Waiting: median", "at most, in 99 of 100 turns", "in 999 of 1,000", "in all"


class Turn(NamedTuple):
    """Where the messages stood as a turn of the shift landed, so many nanoseconds after the start."""

    end: int
    posted: int
    taken: int

    @property
    def waiting(self):
        return self.posted - self.taken


class Watched:
    """A watched run: its turns up to the first by which all messages were taken, from the lines that a program wrote of it."""

    def __init__(self, lists, events, lines):
        *turns, count = lines
        turns = [Turn(*map(int, line.split())) for line in turns]
        # All events are of one thread, which was created.
        messages = lists * events + 1
        if len(turns) != int(count) or not turns or any(turn.waiting < 0 or turn.posted > messages for turn in turns):
            raise ValueError(f"a run of {lists} lists was not written as it is to be")
        through = next((at for at, turn in enumerate(turns) if turn.taken == messages), None)
        if through is None:
            raise ValueError(f"a run of {lists} lists took not all messages in its turns")
        self.lists, self.messages, self.turns = lists, messages, turns[: through + 1]

    @property
    def milliseconds(self):
        return (self.turns[-1].end - self.turns[0].end) / 1e6

    def row(self):
        """Its row of the table."""
        waiting = sorted(turn.waiting for turn in self.turns)
        parts = [waiting[(len(waiting) - 1) * part // 1_000] for part in (500, 990, 999, 1_000)]
        counts = self.messages, len(waiting), *parts
        return [str(self.lists), f"{self.milliseconds:,.0f}", *(f"{count:,}" for count in counts)]

    def columns(self):
        """The counts of waiting messages, by the column of the picture that they stand in."""
        columns, start = {}, self.turns[0].end
        for turn in self.turns:
            columns.setdefault(int((turn.end - start) / 1e6 / self.milliseconds * (WIDTH - 1)), []).append(turn.waiting)
        return columns.items()


def up(waiting):
    """How far above the bottom of a panel so many messages stand."""
    return HEIGHT * math.log10(1 + waiting) / math.log10(1 + MARKS[-1])


def text(x, y, words, kind="soft"):
    return f'<text x="{x:g}" y="{y:g}" class="{kind}">{words}</text>'


def grid(top):
    """The lines of a panel, with their counts."""
    for mark in MARKS:
        y = top + HEIGHT - up(mark)
        yield f'<path class="grid" d="M{LEFT} {y:.1f}h{WIDTH}"/>'
        yield text(LEFT - 6, round(y + 4, 1), f"{mark:,}", "soft end")


def panel(watched, top):
    """A run: in each column the range of what waited, and the median."""
    bottom = top + HEIGHT
    yield text(LEFT, top - 8, f"{watched.lists} list{'s' if watched.lists > 1 else ''} beside the shift", "ink")
    yield from grid(top)
    ranges, medians = [], []
    for column, waiting in watched.columns():
        low, middle, high = (up(of(waiting)) for of in (min, statistics.median, max))
        ranges.append(f"M{LEFT + column + 0.5} {bottom - low + 0.5:.1f}V{bottom - high - 0.5:.1f}")
        medians.append(f"M{LEFT + column} {bottom - middle - 1:.1f}h1v2h-1z")
    yield f'<path class="range" d="{"".join(ranges)}"/>'
    yield f'<path class="median" d="{"".join(medians)}"/>'
    for part in range(5):
        yield text(LEFT + WIDTH * part / 4, bottom + 16, f"{watched.milliseconds * part / 4:.0f} ms", "soft middle")


def picture(runs):
    """The runs as an SVG, which has colours for a dark page, too."""
    width, height = LEFT + WIDTH + 36, TOP + STEP * len(runs) - 20
    yield f'<svg xmlns="http://www.w3.org/2000/svg" viewBox="0 0 {width} {height}" font-family="sans-serif" font-size="13">'
    yield f"<title>How many messages wait</title>\n<style>{STYLE}</style>"
    yield f'<rect class="paper" width="{width}" height="{height}"/>'
    yield text(10, 22, "How many messages wait as a turn of the shift lands", "ink")
    yield text(10, 40, "Light: from the fewest to the most of the turns in a column. Dark: their median. Where nothing is, no turn landed.")
    for number, watched in enumerate(runs):
        yield from panel(watched, TOP + STEP * number)
    yield "</svg>"
