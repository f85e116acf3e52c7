"""Changes, or mutants, of a C source: where they are, and a program that has many of them, one of which a number chooses."""
import re

# Macros that are no conditions: hints to the compiler, and how texts and words are written.
NO_CONDITIONS = ("likely", "unlikely", "TEXT", "W", "HASH", "_GNU_SOURCE", "PUT", "input", "queue", "out")
# What no script shows: the words of the command line, and streams that fail.
NO_SCRIPTS = ("main", "write_all", "read_all", "stop")
# Left out, since no output can depend on it: what is never reached while there is memory, how memory is given back, and a hint of
# how it is used.
UNSEEN = ("__builtin_unreachable", "abort()", "NO_MEMORY", "free(", "madvise")
# Nor on how much is done at once, and on from which number on another way to write it is taken.
PORTIONS = ("FLUSH", "SHORT_SCRIPT", "4096", "100000")
# Nor on whether a walk goes one further: behind the text, and behind a line, there is the end of a line.
ENDS = ("end", "stop", "line")
# Calls, tables and constants whose numbers are bounds or lengths.
BOUNDED = ("NUMBER", "number_in", "post", "NEXT_MESSAGE")
TABLES = ("LEAST", "MOST")
LIMITS = ("MOST_BYTES", "MOST_THREADS", "MOST_CPUS", "MOST_TICKS")
OTHER = {"<": "<=", "<=": "<", ">": ">=", ">=": ">", "==": "!=", "!=": "==", "&&": "||", "||": "&&"}
ASSIGNED = ("=", "+=", "-=", "*=", "/=", "%=", "&=", "|=", "^=", "<<=", ">>=")
TYPES = ("char", "bool", "cpumask", "enum", "struct", "unsigned", "static", "const", "size_t", "ssize_t", "uint8_t", "uint32_t", "uint64_t")
# What no assignment or call begins with.
OTHERS = ("{", "if", "for", "while", "switch", "do", "return", "goto", *TYPES)
# Where an expression ends that is to stand in brackets of its own.
ENDING = (",", ";", "?", ":", "return", "case", "else", "do", *ASSIGNED)
TOKEN = re.compile(
    r"""(?P<space>(?:\s|\\\n)+|//[^\n]*|/\*.*?\*/)|(?P<text>"(?:\\.|[^"\\])*"|'(?:\\.|[^'\\])*')"""
    r"""|(?P<number>0[xX][0-9a-fA-F]+|\d+)(?P<suffix>[uUlL]*)|(?P<word>\w+)"""
    r"""|(?P<mark><<=|>>=|->|<<|>>|<=|>=|==|!=|&&|\|\||[-+*/%&|^]=|\+\+|--|.)""",
    re.DOTALL | re.VERBOSE,
)
# What the program of many changes begins with: the number of the change that is made, and a note of those that a run comes by. It
# is stopped when it has had so much processor time, and if it writes or takes too much.
CHOOSING = """
#include <fcntl.h>
#include <sys/resource.h>
#include <sys/time.h>
static unsigned chosen_change;
static unsigned char no_note[{count}], *reached_changes = no_note;
static inline int is_changed(unsigned number)
{{
    reached_changes[number] = 1;
    return number == chosen_change;
}}
static void limit(int what, rlim_t most)
{{
    setrlimit(what, &(struct rlimit){{ most, most + 1 }});
}}
__attribute__((constructor)) static void choose_change(void)
{{
    const char *note = getenv("REACHED_CHANGES");
    int milliseconds = atoi(getenv("MILLISECONDS"));
    setitimer(ITIMER_PROF, &(struct itimerval){{ .it_value = {{ milliseconds / 1000, milliseconds % 1000 * 1000 }} }}, NULL);
    limit(RLIMIT_CORE, 0);
    limit(RLIMIT_FSIZE, 64 << 20);
    limit(RLIMIT_AS, 1 << 30);
    chosen_change = (unsigned)atoi(getenv("CHANGE"));
    if (note)
        reached_changes = mmap(NULL, sizeof no_note, PROT_READ | PROT_WRITE, MAP_SHARED, open(note, O_RDWR), 0);
}}
"""


class Token:
    def __init__(self, match):
        self.kind, self.text = match.lastgroup if match.lastgroup != "suffix" else "number", match.group()
        self.start, self.end = match.span()


class Change:
    """One piece of the source, and what stands in its place. It is an expression, a statement, or a part that is neither."""

    def __init__(self, source, place, piece, text, change, form):
        self.start, self.end, self.text, self.form = *piece, text, form
        self.name = f"{place}: {line_at(source, change[0])}: {change[1]}"

    def made_in(self, source):
        return source[: self.start] + self.text + source[self.end :]

    def crosses(self, other):
        """Whether both have a part that the other has, and one that the other has not."""
        return self.start < other.start < self.end < other.end or other.start < self.start < other.end < self.end


def line_at(source, place):
    first = source.rfind("\n", 0, place) + 1
    return source[first : source.find("\n", place)].strip().rstrip("\\").strip()


def on_one_line(text):
    return " ".join(text.replace("\\\n", " ").split())


# ---- the source ----


def tokens_of(source):
    """The words and marks of the source, without includes and the macros that are no conditions."""
    skipped = re.compile(rf"#include[^\n]*|#define ({'|'.join(NO_CONDITIONS)})\b(?:\\\n|[^\n])*")
    blank = [match.span() for match in skipped.finditer(source)]
    found = []
    for match in TOKEN.finditer(source):
        token = Token(match)
        if token.kind != "space" and not any(start <= token.start < end for start, end in blank):
            found.append(token)
    return found


def places_of(source):
    """Where in the source something begins that a change is named by: a function, a macro, an event, a label."""
    marks = re.compile(
        r"^(?:static|int|enum)\b[^\n;=]*?(\w+)\([^;{]*\)\n\{|^#define (\w+)|^\s+case (E_\w+):|^ *([a-z]+):$|^(enum)\b"
        r"|^static const[^\n=]* (\w+)\[",
        re.MULTILINE,
    )
    return [(match.start(), next(filter(None, match.groups()))) for match in marks.finditer(source)]


def running_parts(source):
    """From where to where functions and macros stand, without what is set before the program runs."""
    parts = re.compile(r"^#define (?:\\\n|[^\n])*|^\w[^\n;=]*\([^;{]*\)\n\{.*?^\}", re.MULTILINE | re.DOTALL)
    static = [match.span() for match in re.finditer(r"^\s+static const.*?;", source, re.MULTILINE | re.DOTALL)]
    return [match.span() for match in parts.finditer(source)], static


def partners(tokens):
    """Of each opening bracket the place of the closing one, and the other way round."""
    open_ones, found = [], {}
    for at, token in enumerate(tokens):
        if token.kind == "mark" and token.text in "([{":
            open_ones.append(at)
        elif token.kind == "mark" and token.text in ")]}":
            found[at] = open_ones.pop()
            found[found[at]] = at
    return found


def expression(tokens, partner, at):
    """The first and the last token of the expression around a token: of all that `&&` and `||` join, if it is one of these."""
    ending = ENDING if tokens[at].text in ("&&", "||") else (*ENDING, "&&", "||")
    first = last = at
    while tokens[first - 1].text not in ending and tokens[first - 1].text not in ("(", "[", "{"):
        first = partner[first - 1] if tokens[first - 1].text in (")", "]", "}") else first - 1
    while tokens[last + 1].text not in ending and tokens[last + 1].text not in (")", "]", "}"):
        last = partner[last + 1] if tokens[last + 1].text in ("(", "[", "{") else last + 1
    return first, last


def conditions(tokens, partner):
    """The first and the last token of each condition."""
    for at, token in enumerate(tokens[:-1]):
        if token.text in ("if", "while", "REFUSE_IF") and tokens[at - 1].text != "define" and tokens[at + 1].text == "(":
            last = partner[at + 1] - 1
            if token.text == "REFUSE_IF":
                last = next(comma(tokens, partner, at + 2)) - 1
            if last > at + 1 and not (token.text == "while" and tokens[at + 2].text in ("0", "false")):
                yield at + 2, last
        elif token.text == "for" and tokens[at + 1].text == "(":
            stops = [i for i in range(at + 2, partner[at + 1]) if tokens[i].text == ";"]
            if len(stops) == 2 and stops[1] > stops[0] + 1:
                yield stops[0] + 1, stops[1] - 1
        elif token.text == "?":
            first = at - 1
            while tokens[first].text not in ("=", "(", ",", "return", ";", ":", "+=", "?"):
                first = partner[first] - 1 if tokens[first].text in (")", "]") else first - 1
            yield first + 1, at - 1


def comma(tokens, partner, at):
    """The commas of an argument list, from a token of it on."""
    while tokens[at].text != ")":
        if tokens[at].text == ",":
            yield at
        at = partner[at] + 1 if tokens[at].text in ("(", "[", "{") else at + 1


def tests(tokens, partner):
    """Of each statement that is a test (it refuses, or returns) the first and the last token, and those of its condition."""
    at = 0
    while at + 1 < len(tokens):
        end = None
        if tokens[at].text in ("REFUSE_IF", "if") and at + 1 in partner and tokens[at - 1].text not in ("else", "define"):
            after, last = partner[at + 1] + 1, partner[at + 1] - 1
            if tokens[at].text == "REFUSE_IF" and tokens[after].text == ";":
                end, last = after, next(comma(tokens, partner, at + 2)) - 1
            elif tokens[at].text == "if" and tokens[after].text in ("return", "goto"):
                end = next(i for i in range(after, len(tokens)) if tokens[i].text == ";")
                if tokens[end + 1].text == "else":
                    end = None
        if end is None:
            at += 1
        else:
            yield at, end, at + 2, last
            at = end + 1


def statements(tokens, partner):
    """The first and the last token of each statement that is an assignment or a call."""
    for at in range(1, len(tokens) - 1):
        if not begins_statement(tokens, partner, at):
            continue
        end = statement_end(tokens, partner, at)
        if end is None or tokens[at].text in OTHERS:
            continue
        if is_call(tokens, partner, at, end) and tokens[at].text != "REFUSE_IF":
            yield at, end
            continue
        assigning = assignments(tokens, partner, at, end)
        words = [token.kind == "word" for token in tokens[at : assigning[0]]] if assigning else []
        # A type and a name behind it declare.
        if assigning and not any(one and other for one, other in zip(words, words[1:])):
            yield at, end


def begins_statement(tokens, partner, at):
    before = tokens[at - 1].text
    if before == ")":
        return tokens[partner[at - 1] - 1].text in ("if", "while", "for") and tokens[at].text != "#"
    if before == ":":
        return tokens[at - 2].text == "default" or tokens[at - 3].text in ("case", "{", "}", ";")
    return before in ("{", "}", ";", "else", "do")


def statement_end(tokens, partner, at):
    """The `;` that ends what begins at a token, or None."""
    while at < len(tokens) and tokens[at].text not in (";", ")", "]", "}"):
        at = partner[at] + 1 if tokens[at].text in ("(", "[", "{") else at + 1
    return at if at < len(tokens) and tokens[at].text == ";" else None


def is_call(tokens, partner, at, end):
    return tokens[at].kind == "word" and tokens[at + 1].text == "(" and partner[at + 1] == end - 1


def assignments(tokens, partner, at, end):
    """The tokens in a statement that assign, from left to right; where there is none, those that count."""
    found = []
    while at < end:
        found.append(at)
        at = partner[at] + 1 if tokens[at].text in ("(", "[", "{") else at + 1
    return [i for i in found if tokens[i].text in ASSIGNED] or [i for i in found if tokens[i].text in ("++", "--")]


# ---- the changes ----


def is_left_out(tokens, at):
    """Whether a bound is tried in another way, or can be seen by nothing.

    That of `n < 10` is tried as 11 and 9. A minimum is one either way. By `p - first` it is asked early whether digits
    are too many, which a later test says.
    """
    token, before, after = tokens[at], tokens[at - 3 : at], tokens[at + 1 : at + 6]
    if token.kind == "number":
        return [other.text for other in tokens[at - 4 : at - 1]] == ["p", "-", "first"]
    if token.text not in ("<", "<=", ">", ">="):
        return False
    if after[0].text in ENDS or after[0].kind == "number" and after[1].text not in ("+", "-", "*", "/", "%"):
        return True
    return [other.text for other in after] == [after[0].text, "?", before[-1].text, ":", after[0].text]


def bounding(tokens, partner):
    """Where the numbers of conditions, of bounds and of lengths stand."""
    found = set()
    for first, last in conditions(tokens, partner):
        found.update(range(first, last + 1))
    for at, token in enumerate(tokens[:-1]):
        if token.text in BOUNDED and tokens[at + 1].text == "(":
            found.update(range(at + 1, partner[at + 1]))
        elif token.text in TABLES and [mark.text for mark in tokens[at + 1 : at + 5]] == ["[", "]", "=", "{"]:
            found.update(range(at, partner[at + 4]))
        elif token.text in LIMITS and tokens[at + 1].text == "=":
            found.add(at + 2)
        elif token.text == "return":
            end = next(i for i in range(at, len(tokens)) if tokens[i].text == ";")
            if any(tokens[i].text in OTHER for i in range(at, end)):
                found.update(range(at, end))
    return found


class Changes:
    """Collects the changes of a source."""

    def __init__(self, source):
        self.source, self.found = source, []
        self.tokens = tokens_of(source)
        self.partner = partners(self.tokens)
        self.places = places_of(source)
        self.running, self.static = running_parts(source)

    def text(self, first, last):
        return self.source[self.tokens[first].start : self.tokens[last].end]

    def add(self, first, last, text, at, change, form="expression"):
        """The tokens from `first` to `last` become a text. The change is named by the line of token `at`."""
        start, end, named = self.tokens[first].start, self.tokens[last].end, self.tokens[at].start
        place = [name for begin, name in self.places if begin <= named][-1:] or ["file"]
        line = line_at(self.source, named)
        if place[0] in NO_SCRIPTS or any(word in line for word in PORTIONS + UNSEEN):
            return
        if not any(a <= start < b for a, b in self.running) or any(a <= start < b for a, b in self.static):
            if form == "statement":
                return
            form = "neither"
        self.found.append(Change(self.source, place[0], (start, end), text, (named, change), form))

    def of_token(self, at, text, change):
        """The expression around a token changes by it."""
        first, last = expression(self.tokens, self.partner, at)
        start, token, end = self.tokens[first].start, self.tokens[at], self.tokens[last].end
        self.add(first, last, self.source[start : token.start] + text + self.source[token.end : end], at, change)

    def of_tokens(self):
        bounds = bounding(self.tokens, self.partner)
        for at, token in enumerate(self.tokens):
            if token.kind == "mark" and token.text in OTHER and not is_left_out(self.tokens, at):
                self.of_token(at, OTHER[token.text], f"{token.text} -> {OTHER[token.text]}")
            elif token.text == "!":
                self.of_token(at, "", "! gone")
            elif token.kind == "number" and at in bounds and not is_left_out(self.tokens, at):
                digits = re.match(r"0[xX][0-9a-fA-F]+|\d+", token.text).group()
                suffix = token.text[len(digits) :]
                value = int(digits, 0)
                # A bound of what has to be a multiple of 8 is moved by 8.
                step = 8 if value > 8 and "% 8" in line_at(self.source, token.start) else 1
                # One that is compared as equal is tried as one other.
                for other in (value + 1,) if self.tokens[at - 1].text in ("==", "!=") else (value + step, value - step):
                    if other >= 0:
                        self.of_token(at, f"{other}{suffix}", f"{token.text} -> {other}")

    def of_conditions(self):
        for first, last in conditions(self.tokens, self.partner):
            texts = [token.text for token in self.tokens[first : last + 1]]
            # One comparison alone, or one `!`, is turned round already.
            if texts[0] == "!" and "&&" not in texts and "||" not in texts:
                continue
            if sum(text in ("==", "!=") for text in texts) == 1 and not {"&&", "||", "&"} & set(texts):
                continue
            text = self.text(first, last)
            self.add(first, last, f"!({text})", first, f"not ({on_one_line(text)})")

    def of_tests(self):
        before = None
        for first, last, start, end in tests(self.tokens, self.partner):
            text = self.text(first, last)
            self.add(start, end, "0", first, f"test gone: {on_one_line(text)}")
            if before and before[1] + 1 == first and begins_statement(self.tokens, self.partner, before[0]):
                other = self.text(*before)
                gap = self.source[self.tokens[before[1]].end : self.tokens[first].start]
                self.add(before[0], last, text + gap + other, before[0], f"exchanged with {on_one_line(text)}", "statement")
            before = first, last

    def of_statements(self):
        for first, last in statements(self.tokens, self.partner):
            text = on_one_line(self.text(first, last))
            assigning = assignments(self.tokens, self.partner, first, last)
            if len(assigning) < 2:
                self.add(first, last, ";", first, f"gone: {text}", "statement")
                continue
            # One of several that take the same value.
            begin = first
            for at in assigning:
                rest = self.source[self.tokens[first].start : self.tokens[begin].start] + self.text(at + 1, last)
                self.add(first, last, rest, first, f"gone: {on_one_line(self.text(begin, at))}", "statement")
                begin = at + 1


def changes_of(source):
    found = Changes(source)
    found.of_tokens()
    found.of_conditions()
    found.of_tests()
    found.of_statements()
    return numbered(found.found)


def numbered(found):
    """Names that several have get a number."""
    counts, seen = {}, {}
    for change in found:
        counts[change.name] = counts.get(change.name, 0) + 1
    for change in found:
        if counts[change.name] > 1:
            seen[change.name] = seen.get(change.name, 0) + 1
            change.name += f" ({seen[change.name]})"
    return found


# ---- many in one program ----


def groups_of(changes):
    """The changes in groups that can be made in one program each: those of pieces that cross go to several, and each that is neither
    an expression nor a statement is alone."""
    groups = []
    for change in changes:
        if change.form == "neither":
            continue
        for group in groups:
            if not any(change.crosses(other) for other in group):
                group.append(change)
                break
        else:
            groups.append([change])
    return groups + [[change] for change in changes if change.form == "neither"]


def program_of(source, group):
    """The source of the program of a group, in which a change has its place in the group as its number, from 1 on."""
    if group and group[0].form == "neither":
        return begun(group[0].made_in(source), 0)
    pieces = {}
    for number, change in enumerate(group, 1):
        pieces.setdefault((change.start, change.end, change.form), []).append((number, change))
    # A piece goes before those in it, a statement before an expression.
    order = sorted(pieces, key=lambda piece: (piece[0], -piece[1], piece[2] == "expression"))
    text, rest = written(source, pieces, order, 0, len(source))
    assert not rest
    return begun(text, len(group))


def begun(text, count):
    """A source with what chooses a change, behind its includes."""
    at = text.index("\n", text.rindex("#include")) + 1
    return text[:at] + CHOOSING.format(count=count + 1) + text[at:]


def written(source, pieces, order, start, end):
    """The source from one place to another with the pieces that are in it, and those that come after them."""
    text = ""
    while order and order[0][0] < end and order[0][1] <= end:
        piece, order = order[0], order[1:]
        text += source[start : piece[0]]
        inner, order = written(source, pieces, order, piece[0], piece[1])
        for number, change in reversed(pieces[piece]):
            if piece[2] == "expression":
                inner = f"(is_changed({number}) ? ({change.text}) : ({inner}))"
            else:
                inner = f"{{ if (is_changed({number})) {{ {change.text} }} else {{ {inner} }} }}"
        text, start = text + inner, piece[1]
    return text + source[start:end], order
