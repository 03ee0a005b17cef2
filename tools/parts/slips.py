"""Reading a slip: what its lines say, or which line is off the form."""
import re
import reports

MOST_MEMBERS, MOST_BALLOTS, MOST_CELLS, MOST_BYTES = 1_000, 1_000, 100, 16_777_216
DOLLAR = 1_000_000
WHOLE = "(0|[1-9][0-9]*)"
UP_TO_1000 = "([1-9][0-9]{0,2}|1000)"
CELL = "(%s):(0|[1-9][0-9]?|100)" % reports.NAME


class Slip:
    """A slip. `ballots` has for each person its cells, each a proposal with its points."""

    def __init__(self, lines):
        self.at, self.members, self.ballots = 0, [], {}
        rest = iter(lines)
        self.name, chance, of = self.match(next(rest, None), "slip W chance N/N", WHOLE)
        self.chance = int(chance)
        self.need(self.chance < 2 ** 64, "the chance has to be below 2^64")
        seats, persons = self.match(next(rest, None), "seats N persons N", UP_TO_1000)
        self.seats, self.persons = int(seats), int(persons)
        self.of = self.persons * DOLLAR
        self.need(of == str(self.of), "the first line counts over another number than %d" % self.of)
        for line in rest:
            self.member_or_ballot(line)
        if not self.members:
            raise reports.NotUnderstood(self.at + 1, "the slip ends before it, and a member is wanted")

    def match(self, line, form, number):
        self.at += 1
        if line is None:
            raise reports.NotUnderstood(self.at, "the slip ends before it")
        wanted = re.sub(r"\bN\b", "NUMBER", re.sub(r"\bW\b", "NAME", form))
        pattern = re.sub(r"\bN\b", lambda _: number, re.sub(r"\bW\b", "(%s)" % reports.NAME, form))
        parts = re.fullmatch(pattern, line)
        self.need(parts, "`%s`, and `%s` is wanted" % (reports.shown(line), wanted))
        return parts.groups()

    def need(self, holds, what):
        if not holds:
            raise reports.NotUnderstood(self.at, what)

    def member_or_ballot(self, line):
        self.at += 1
        kind, *words = line.split(" ")
        named = kind in ("member", "ballot") and words and re.fullmatch(reports.NAME, words[0])
        self.need(named, "`%s`, and a line `member` or `ballot` is wanted" % reports.shown(line))
        if kind == "member":
            self.need(len(words) == 1, "a member is one name")
            self.need(not self.ballots, "the members stand before the ballots")
            self.need(words[0] not in self.members, "this member stands before it already")
            self.need(len(self.members) < MOST_MEMBERS, "there are %d members already" % MOST_MEMBERS)
            self.members.append(words[0])
        else:
            self.need(self.members, "no member stands before it")
            self.need(words[0] not in self.ballots, "this person has a ballot before it already")
            self.need(len(self.ballots) < MOST_BALLOTS, "there are %d ballots already" % MOST_BALLOTS)
            self.ballots[words[0]] = self.cells(words[1:])

    def cells(self, words):
        self.need(1 <= len(words) <= MOST_CELLS, "a ballot has 1 to %d proposals" % MOST_CELLS)
        cells = {}
        for word in words:
            parts = re.fullmatch(CELL, word)
            self.need(parts, "`%s`, and `PROPOSAL:POINTS` is wanted" % reports.shown(word))
            self.need(parts.group(1) not in cells, "`%s` stands in it twice" % parts.group(1))
            cells[parts.group(1)] = int(parts.group(2))
        return cells


def read_slip(data):
    if len(data) > MOST_BYTES:
        raise reports.NotUnderstood(0, "the slip has more than %d bytes" % MOST_BYTES)
    *lines, last = data.decode("latin-1").split("\n")
    if not last:
        return Slip(lines)
    # A line before the last may be the first that is off the form.
    try:
        Slip(lines)
    except reports.NotUnderstood as error:
        if error.line <= len(lines):
            raise
    raise reports.NotUnderstood(len(lines) + 1, "it has no line end, so that the end of the slip is missing")
