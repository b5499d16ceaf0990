"""Breaks a line of a term, in antt or in a clause of .rt, where it is too long (`.ci/pages/columns.py`).

A line is broken at the loosest operator that stands in the fewest brackets: before an operator, `then` and `else`, after the
dot of a λ, `;` and `,`. Where there is none it is broken before an argument, or within the brackets of the last one. A break
takes the place of a space; what is broken off stands four columns behind the beginning of the line. `rt fmt` then lays out
records, tuples and cases.
"""
import collections
import re

# What begins a clause or another term of a .rt file, up to its brace.
CLAUSE = re.compile(r"(?:ensures\*?|requires|invariant|decreases|prove|ghost)\b[^{;]*\{")
# The head of a declaration of antt that opens a block.
BLOCK_HEAD = re.compile(r"(pub )?(record|data|module) .* where")
BINDERS = re.compile(r"λ (?:[^.()]|\([^()]*\))*\. ")
OPEN, CLOSE = "([{⟦", ")]}⟧"
# What a line is broken after, and the operators that it is broken before, the loosest first.
AFTER = (";", ",", "in", "λ")
BEFORE = (
    ("|",),
    ("then", "else"),
    ("→", "↔"),
    (">>=", ">>>"),
    ("∙",),
    ("⊎",),
    ("×",),
    ("||",),
    ("&&",),
    ("≡", "≢", "<", "≤", "=="),
    ("∷", "++"),
    ("+", "-", "+ℤ", "-ℤ"),
    ("*", "*ℤ", "/", "%", "^"),
)
RANKS = {word: len(AFTER) + i for i, words in enumerate(BEFORE) for word in words}
APPLICATION = len(AFTER) + len(BEFORE)
# What stands on one line with the word behind it, beside each operator; and what does with the word before it.
BINDS_NEXT = (":", "=", "↦", "←", "if", "let", "elim", "record", "Type")
BINDS_LAST = ("=", "↦", "where", "in", "λ")

Word = collections.namedtuple("Word", "start end")


class Term:
    """A line of a term, and where it may be broken."""

    def __init__(self, text, width, kept):
        self.text, self.width, self.kept, self.laid = text, width, set(), {}
        self.is_head = BLOCK_HEAD.match(text.lstrip()) is not None
        for old in kept:
            at = text.find(old)
            while at >= 0:
                self.kept.update(range(at + 1, at + len(old)))
                at = text.find(old, at + 1)

    def words(self, start, end):
        """The words of a part that stand in the fewest brackets."""
        spaces, depth, is_text = [], 0, False
        for i in range(start, end):
            c = self.text[i]
            if c == '"':
                is_text = not is_text
            elif not is_text and c in OPEN:
                depth += 1
            elif not is_text and c in CLOSE:
                depth -= 1
            elif not is_text and c == " " and self.text[i + 1] not in CLOSE and self.text[i - 1] not in "{[":
                spaces.append((depth, i))
        least = min((d for d, _ in spaces), default=0)
        cuts = [start - 1] + [i for d, i in spaces if d == least] + [end]
        return [Word(a + 1, b) for a, b in zip(cuts, cuts[1:])]

    def breaks(self, words):
        """The looseness of the break before each word but the first; None where there must be none."""
        found, binds = [None], self.text[words[0].start] == "λ"
        lets = self.of(words[0]) == "let"
        for last, word in zip(words, words[1:]):
            before, it = self.of(last), self.of(word)
            rank = RANKS.get(it, APPLICATION)
            if binds and before.endswith("."):
                rank, binds = AFTER.index("λ"), False
            elif before[-1] in ";,":
                rank = AFTER.index(before[-1])
            elif before == "in" and lets:
                rank = AFTER.index("in")
            elif before == "=" and lets:
                rank = APPLICATION
            elif binds or before in RANKS or before in BINDS_NEXT:
                rank = None
            elif it in BINDS_LAST or it[0] == "{" or it == ":" and not self.is_head:
                rank = None
            binds, lets = binds or it.startswith("λ"), lets or it == "let"
            found.append(None if last.end in self.kept else rank)
        return found

    def of(self, word):
        return self.text[word.start : word.end]

    def fits(self, start, end, column, tail):
        return column + end - start + tail <= self.width

    def lay(self, *place):
        """What `anew` gives, which is remembered: each part is asked for again at each depth of brackets around it."""
        if place not in self.laid:
            self.laid[place] = self.anew(*place)
        return list(self.laid[place])

    def anew(self, start, end, column, base, level, tail):
        """The lines of a part as (column, text): the first stands at `column` of a line that begins at `base`, the others at
        `level`. `tail` more characters follow the last one."""
        if self.fits(start, end, column, tail):
            return [(column, self.text[start:end])]
        words = self.words(start, end)
        ranks = self.breaks(words)
        loosest = min((r for r in ranks if r is not None), default=None)
        if loosest is not None and loosest < APPLICATION:
            return self.filled(words, [r == loosest for r in ranks], column, base, level, tail)
        hung = self.hung(words, column, base, level, tail)
        if loosest is None:
            return hung or [(column, self.text[start:end])]
        apart = self.filled(words, [r is not None for r in ranks], column, base, level, tail)
        is_opened = hung and hung[0][1].endswith((".", "{", "["))
        return hung if hung and self.cost(hung) < self.cost(apart, is_opened) else apart

    def cost(self, lines, more=0):
        return sum(column + len(text) > self.width for column, text in lines), len(lines) + bool(more)

    def filled(self, words, may_break, column, base, level, tail):
        """As much on each line as it holds, broken before the words that may begin one."""
        starts = [i for i, it in enumerate(may_break) if it]
        parts = [(words[a].start, words[b - 1].end) for a, b in zip([0] + starts, starts + [len(words)])]
        lines, (start, end) = [], parts[0]
        for part in parts[1:]:
            if self.fits(start, part[1], column, tail if part is parts[-1] else 0):
                end = part[1]
                continue
            lines += self.lay(start, end, column, base, level, 0)
            (start, end), column, base = part, level, level
        return lines + self.lay(start, end, column, base, level, tail)

    def opened(self, word):
        """Where the first bracket of a word opens that it may be broken in; None where it has none."""
        return next((i for i in range(word.start, word.end - 1) if self.text[i] in "([{"), None)

    def hung(self, words, column, base, level, tail):
        """The last argument begun on the first line, and broken within its brackets; None where it has none."""
        start, last = words[0].start, words[-1]
        if self.of(last) in ("in", "{") and len(words) > 1:
            last = Word(words[-2].start, last.end)
        opened = self.opened(last)
        if opened is None or re.search('["⟦]', self.text[last.start : opened]):
            return None
        closed = self.closing(opened, last.end)
        inner, end = opened + 1 + (self.text[opened + 1] == " "), closed - (self.text[closed - 1] == " ")
        if inner - start + column > self.width or end <= inner:
            return None
        rest = self.text[end : last.end]
        block = self.block(start, opened, inner, end, base)
        if block:
            return [(column, self.text[start : opened + 1])] + block + ([(base, rest.lstrip())] if rest else [])
        lines = self.lay(inner, end, column + inner - start, base, level, tail + len(rest))
        lines[0] = (column, self.text[start:inner] + lines[0][1])
        return lines[:-1] + [(lines[-1][0], lines[-1][1] + rest)]

    def block(self, start, opened, inner, end, base):
        """The fields of a record or the cases of an `elim`, each on a line of its own; None where it is neither."""
        before = self.text[start:opened]
        is_record = self.text[opened] == "{" and re.search(r"\brecord( [\w.']+| \([^()]*\))? $", before)
        is_cases = self.text[opened] == "[" and re.search(r"\belim ", before)
        words = self.words(inner, end)
        cuts = [i for i, w in enumerate(words) if i and (self.of(words[i - 1])[-1] == ";" if is_record else self.of(w) == "|")]
        if not is_record and not is_cases or self.kept & {opened + 1, end, *(words[i].start - 1 for i in cuts)}:
            return None
        lines = []
        for a, b in zip([0] + cuts, cuts + [len(words)]):
            text = self.text[words[a].start : words[b - 1].end]
            text += ";" if is_record and not text.endswith(";") else ""
            text = text if is_record or text.startswith("|") else "| " + text
            lines += broken(" " * (base + 2) + text, self.width, (), False)
        return [(len(it) - len(it.lstrip()), it.lstrip()) for it in lines]

    def closing(self, opened, end):
        """Where the bracket closes that opens here; the end, where it doesn't."""
        depth, is_text = 0, False
        for i in range(opened, end):
            is_text ^= self.text[i] == '"'
            depth += 0 if is_text else (self.text[i] in OPEN) - (self.text[i] in CLOSE)
            if depth == 0:
                return i
        return end


def equals_sign(term, start):
    """Where the body of a definition, a field or a case begins; None where the line has none."""
    words = term.words(start, len(term.text))
    for last, word in zip(words, words[1:]):
        if term.of(last) in ("=", "↦", "←"):
            return word.start if last.end not in term.kept else None
        if term.of(last) in RANKS and term.of(last) != "|" or term.of(last).startswith("λ"):
            return None
    return None


def colon(term, start):
    """Where the type of a signature begins; None where the line is none."""
    words = term.words(start, len(term.text))
    return next((w.start for last, w in zip(words, words[1:]) if term.of(last) == ":"), None)


def broken(line, width, kept, is_body):
    """The lines of a line of a term. `is_body` says that it goes on from a line before it, so its operators stand below it."""
    if len(line) <= width:
        return [line]
    indent = len(line) - len(line.lstrip())
    term, level = Term(line, width, kept), indent + 4
    clause = CLAUSE.match(line, indent)
    if clause and term.closing(clause.end() - 1, len(line)) >= len(line.rstrip(";")) - 1:
        start = clause.end() + 1
        return joined(line[:start], term.lay(start, len(line), start, indent, level, 0))
    at = None if term.is_head else equals_sign(term, indent)
    if at:
        return of_definition(term, indent, at)
    at = None if term.is_head else colon(term, indent)
    if at:
        return joined(line[:at], term.lay(at, len(line), at, indent, level, 0))
    is_body = is_body or term.of(term.words(indent, len(line))[0]) in RANKS
    return joined("", term.lay(indent, len(line), indent, indent, indent if is_body else level, 0))


def of_definition(term, indent, at):
    """A definition: its body on the next line where that holds it, or behind the binders of a λ, else the body broken."""
    line, width, level = term.text, term.width, indent + 4
    binders = BINDERS.match(line, at)
    if binders and len(line) + level - binders.end() > width and binders.end() <= width:
        at = binders.end()
    below = [(indent, line[indent : at - 1])] + term.lay(at, len(line), level, level, level, 0)
    beside = term.lay(at, len(line), at, indent, level, 0)
    beside[0] = (indent, line[indent:at] + beside[0][1])
    is_block = beside[0][1][-1] in "{["
    lines = beside if is_block and term.cost(beside)[0] <= term.cost(below)[0] else below
    return [" " * column + text for column, text in lines]


def joined(first, lines):
    """Lines of (column, text), the first of which stands behind a text."""
    texts = [" " * column + text for column, text in lines]
    return [first + texts[0][len(first) :] if first else texts[0]] + texts[1:]
