"""How the long lines of a file of definitions or proofs are broken.

`rt fmt` sets how far a line is indented, by two rules. A line that goes on with a declaration, a field or a case is indented by 4 more than
that began, whatever brackets it is in. Where the parts of a tuple, a record or a list of cases are on lines of their own, each is indented
by 2 more than the line that opens the brackets, and what closes them as far as that line.

So a line is broken where the reader pauses: after `=`, `↦` and `in`, before `→`, `∙` and an argument, outside of brackets rather than
inside, or each part of a tuple, a record or a list of cases gets a line. Of all ways to break it the one that costs least is taken. A line
costs, a break costs by what is there and by the brackets around it, and so does an operator that is left inside a line which begins or
ends at something that holds closer together.
"""
import re
import textwrap

WIDTH = 140
NAME = r"[^\s(){};,.@\"\[\]«]"
WORD = re.compile(rf'--.*|"(?:\\.|[^"\\])*"|«[^»]*»|(?:{NAME}|\.(?={NAME}))+|\S')
# Lines that stay at any length: what `rt check --fix-imports` writes, and code with a comment at its end.
KEPT = re.compile(r"\s*((pub |unfoldable )*(use|mod|open)|unfolding) |\s*(?!--)\S.* -- ")
CLOSED_BY = {"(": ")", "[": "]", "{": "}"}
SEPARATORS = {"(": ",", "{": ";", "[": "|"}

# What a line costs, each pair of brackets around a break, brackets whose parts get lines, each step by which an operator inside a line is
# looser than where it begins or ends, a line with a bracket alone, a break in the type of a `let` or in a choice, a column that is left.
LINE, DEPTH, OPENING, LOOSER, BARE, WITHIN, COLUMN = 4, 5, 3, 2.5, 4, 4, 0.012
# What a break costs after these words, and before these operators and others: loose ones cost little.
AFTER = {"=": 1, "↦": 1, "in": 1.5, ".": 4}
CHAINED = ["≡", "≢", "≤", "<", "++", "∷", "&&", "||", "==", "+", "-", "*", "/", "%", "^", ">>="]
OPERATORS = {"→": 1, "↔": 2, "⊎": 2.5, "then": 2.5, "else": 2.5, "×": 3, "∙": 3, "▹": 3} | dict.fromkeys(CHAINED, 5.5)
PREMISES, BINDER, LET_VALUE, GROUP, ARGUMENT, PATTERN, FIRST = 0, 1.5, 2.5, 6, 7.5, 9, 12
# How much less a break costs between `=` or `↦` and these, and what is too long.
BLOCK, TOO_LONG = 4, 1000
# No break comes after the first of these, nor before the second; what a name that is bound ends with.
LEADING = {*"( [ { λ let elim record if then else unfold do ¬ ← : , ; | as at".split(), *OPERATORS}
TRAILING = set(") ] } , ; : = in . ↦ | where as at".split())
BINDERS = {"λ": ".", "let": ":="}


def words_of(text):
    """The words of a text, without the separators that only broken brackets have, and without what begins a line of comment."""
    words = []
    for line in text.split("\n"):
        for word in WORD.findall(line):
            words += word.removeprefix("--").split() if word.startswith("--") else [word]
    around = zip(["", *words], words, [*words[1:], ""])
    return [it for last, it, then in around if (it, then) not in ((",", ")"), (";", "}")) and (last, it) != ("[", "|")]


class Line:
    """A line that is too long: its words, and for each bracket that opens in it the word that closes it."""

    def __init__(self, text):
        self.text = text
        self.spans = [it.span() for it in WORD.finditer(text)]
        self.words = [text[start:end] for start, end in self.spans]
        self.ends, self.begins, opened = {}, {}, []
        for at, word in enumerate(self.words):
            if word in CLOSED_BY:
                opened.append(at)
            elif opened and word == CLOSED_BY[self.words[opened[-1]]]:
                self.begins[at] = opened.pop()
                self.ends[self.begins[at]] = at

    def between(self, start, end):
        return self.text[self.spans[start][0] : self.spans[end - 1][1]]

    def is_apart(self, at):
        """Whether a blank is before this word."""
        return self.spans[at - 1][1] < self.spans[at][0]

    def inside(self, opener):
        """The words between these brackets that are in no further brackets, with where they are."""
        at = opener + 1
        while at < self.ends[opener]:
            yield at, self.words[at]
            at = self.ends.get(at, at) + 1

    def has(self, opener, *words):
        """Whether these are brackets that have one of these words directly in them."""
        return opener in self.ends and any(it in words for _, it in self.inside(opener))

    def has_parts(self, opener):
        """Whether these are the brackets of a tuple, of a record or of a list of cases."""
        if self.words[opener] != "{":
            return self.has(opener, SEPARATORS[self.words[opener]], "↦")
        if self.words[opener - 1] == "record":
            return self.has(opener, "=", ":")
        return self.words[self.begins.get(opener - 1, opener - 1) - 1] == "record" and self.has(opener, "=")

    def parts(self, opener):
        """The parts between these brackets: where each begins and ends, and the separators that it lacks before and after."""
        sign, end = SEPARATORS[self.words[opener]], self.ends[opener]
        cuts = [at for at, word in self.inside(opener) if word == sign]
        if sign == "|":
            starts = [opener + 1, *(it for it in cuts if it > opener + 1)]
            return [(a, b, "" if self.words[a] == sign else "| ", "") for a, b in zip(starts, [*starts[1:], end])]
        starts = [opener + 1, *(it + 1 for it in cuts if it + 1 < end)]
        return [(a, b, "", "" if self.words[b - 1] == sign else sign) for a, b in zip(starts, [*starts[1:], end])]


class Piece:
    """A declaration, a field, a case or what goes on with one: the words from `start` to `end`. Its first line is indented by `indent`, the
    further ones by 4 more than `base`."""

    def __init__(self, line, start, end, indent, base, before="", after=""):
        self.line, self.start, self.end, self.indent, self.base = line, start, end, indent, base
        self.before, self.after = before, after
        self.breaks, self.openings, self.known = {}, {}, {}
        self.pattern_end = self.left_side() if indent == base else start
        self.find()

    def left_side(self):
        """Where the left side of an equation ends, the name of a field or the pattern of a case."""
        at = self.start
        while at < self.end and self.line.words[at] not in (":", "let", "λ", "→"):
            if self.line.words[at] in ("=", "↦"):
                return at
            at = self.line.ends.get(at, at) + 1
        return self.start

    def find(self):
        """Finds where the piece can be broken, and which brackets can be opened, each with what that costs."""
        line, at, depth, binders, scopes = self.line, self.start, self.depth(), [], []
        while at < self.end:
            word, is_pattern = line.words[at], at < self.pattern_end or bool(binders)
            cost = self.cost(at, scopes) if at > self.start and line.is_apart(at) and not binders else None
            if cost is not None:
                self.breaks[at] = cost + DEPTH * depth
            self.follow(word, binders, scopes)
            is_whole = line.ends.get(at, self.end) < self.end
            if is_whole and not is_pattern and line.has_parts(at):
                self.openings[at] = OPENING + DEPTH * depth
            if is_whole and (word != "(" or is_pattern or line.has_parts(at)):
                at = line.ends[at]
            else:
                depth += self.weight(at) if word == "(" else -self.weight(line.begins.get(at)) if word == ")" else 0
            at += 1

    def weight(self, opener):
        """How much these brackets count: little where a chain goes on in them, as in `a ++ (b ++ c)`."""
        last = self.line.words[opener - 1] if opener else ""
        return 0.2 if last in CHAINED and self.line.has(opener, last) else 1

    def depth(self):
        """How many brackets that the piece closes were opened before it."""
        return sum(self.line.words[at] == ")" and self.line.begins.get(at, -1) < self.start for at in range(self.start, self.end))

    def follow(self, word, binders, scopes):
        """Keeps what is open after this word: names that are being bound, and each `let` and `if`."""
        if word in BINDERS:
            binders.append(BINDERS[word])
        elif binders and word in binders[-1]:
            scopes += [word] if binders.pop() != "." else []
        elif word == "=" and ":" in scopes:
            scopes[-1] = "="
        elif word == "if":
            scopes.append(word)
        elif (word == "in" or word == "else" and "if" in scopes) and scopes:
            scopes.pop()

    def cost(self, at, scopes):
        """What a break before this word costs, or none where there can be none."""
        words, last, word = self.line.words, self.line.words[at - 1], self.line.words[at]
        # (brackets that belong to what is before them: cases, the fields of a record, an argument that is given by name)
        if word in TRAILING or word in ("[", "{") and (self.line.has_parts(at) or self.line.has(at, "=")):
            return None
        if at < self.pattern_end:
            return None if last in LEADING or word in OPERATORS else PATTERN
        if last in AFTER:
            return LET_VALUE if last == "=" and scopes else AFTER[last] - (BLOCK if word in ("let", "if") and last in "=↦" else 0)
        within = WITHIN if scopes and scopes[-1] in (":", "if") and word not in ("then", "else") else 0
        if word in OPERATORS:
            return PREMISES if word == "→" and last in ")}" and "→" not in words[self.start : at] else OPERATORS[word] + within
        if last in LEADING:
            return None
        if last in ")}:" and self.line.has(at, ":"):
            return BINDER + within
        if self.is_head(at - 1):
            return FIRST
        return (GROUP if word in ("(", "record", "λ", "let", "elim", "if") else ARGUMENT) + within

    def is_head(self, at):
        """Whether this word is a function whose first argument comes next."""
        last = self.line.words[at - 1]
        return at == self.start or last == "(" or self.line.is_apart(at) and (last in LEADING or last in AFTER)

    def rest(self, at, indent):
        """The best way to write the words from this one on: what it costs and its lines."""
        if (at, indent) not in self.known:
            ways = [*self.ways(at, indent)]
            self.known[at, indent] = min(reversed(ways), key=lambda it: round(it[0], 3))
        return self.known[at, indent]

    def ways(self, at, indent):
        """The ways to write the words from this one on, by where the first line ends."""
        begun, loosest = self.breaks.get(at, 0), TOO_LONG
        for stop in range(at + 1, self.end + 1):
            opens = stop - 1 in self.openings
            if stop < self.end and not opens and stop not in self.breaks:
                continue
            text = (self.before if at == self.start else "") + self.line.between(at, stop) + (self.after if stop == self.end else "")
            left = WIDTH - indent - len(text)
            cost = LINE + LOOSER * max(0, begun - loosest) + (BARE if text in CLOSED_BY else 0) + (TOO_LONG if left < 0 else 0)
            if stop == self.end:
                yield cost, ((indent, text),)
                return
            ended = self.openings[stop - 1] if opens else self.breaks[stop]
            more, lines = self.opened(stop - 1, indent) if opens else self.rest(stop, self.base + 4)
            yield cost + COLUMN * left + ended + LOOSER * max(0, ended - loosest) + more, ((indent, text), *lines)
            if left < 0:
                return
            loosest = loosest if opens else min(loosest, ended)

    def opened(self, opener, indent):
        """The parts between these brackets, each from a line of its own on, and the rest of the piece."""
        cost, rest = self.rest(self.line.ends[opener], indent)
        lines = []
        for start, end, before, after in self.line.parts(opener):
            more, part = Piece(self.line, start, end, indent + 2, indent + 2, before, after).lines()
            cost, lines = cost + more, [*lines, *part]
        return cost, (*lines, *rest)

    def lines(self):
        return self.rest(self.start, self.indent)


def indent_of(line):
    return len(line) - len(line.lstrip())


def is_comment(line):
    return line.lstrip().startswith("--")


def base_of(lines, at):
    """How far the declaration, the field or the case is indented that this line begins or goes on with."""
    own = indent_of(lines[at])
    outer = next((it for it in reversed(lines[:at]) if it.strip() and not is_comment(it) and indent_of(it) < own), "")
    return indent_of(outer) if own - indent_of(outer) == 4 else own


def broken(lines, at):
    """The lines that this one becomes, and how many it takes the place of."""
    if is_comment(lines[at]):
        begin = " " * indent_of(lines[at]) + "-- "
        end = next(it for it in range(at + 1, len(lines)) if not lines[it].startswith(begin) or lines[it].startswith(f"{begin}--"))
        text = " ".join(it.removeprefix(begin) for it in lines[at:end])
        return textwrap.wrap(text, WIDTH, initial_indent=begin, subsequent_indent=begin, break_on_hyphens=False), end - at
    line = Line(lines[at])
    _, found = Piece(line, 0, len(line.words), indent_of(lines[at]), base_of(lines, at)).lines()
    return [" " * by + text for by, text in found], 1


def shift(lines, at, old, new):
    """Indents what is between the brackets that the line before this one opens, now that this is indented by `new` and not by `old`."""
    if old == new or not lines[at - 1].endswith(tuple(CLOSED_BY)) or indent_of(lines[at]) != old + 2:
        return
    end = next(it for it in range(at, len(lines)) if lines[it] and indent_of(lines[it]) <= old)
    for it in range(at, end + 1):
        lines[it] = " " * (indent_of(lines[it]) + new - old) + lines[it].lstrip() if lines[it] else ""


def is_long(line):
    return len(line) > WIDTH and not KEPT.match(line)


def laid_out(text):
    """The text of a file with its long lines broken."""
    lines, at = text.split("\n"), 0
    while at < len(lines):
        if is_long(lines[at]):
            old, (new, taken) = indent_of(lines[at]), broken(lines, at)
            if new[0].strip() in CLOSED_BY and lines[at - 1].endswith((" =", " in", " ↦")):
                # (the bracket goes to the end of the line before)
                at -= 1
                lines[at : at + 2] = [f"{lines[at]} {lines[at + 1].strip()}"]
                new, taken = broken(lines, at)
            lines[at : at + taken] = new
            at += len(new) - 1
            shift(lines, at + 1, old, indent_of(new[-1]))
        at += 1
    return "\n".join(lines)


def long_lines(text):
    """The numbers of the lines that are too long."""
    return [number for number, line in enumerate(text.split("\n"), 1) if is_long(line)]
