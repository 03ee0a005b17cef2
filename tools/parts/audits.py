"""Reading an audit: the lines of its run with what became of each, and the report."""
import json
import re
import reports

HEADER = {"format": "peer-house-audit"}
MOST_LINES = 1_048_576
# What each kind of review lines that are set aside means, in the words of the start script.
MEANINGS = {
    "form": "it has not exactly 4 words",
    "early": "no `assign` came before it",
    "late": "`close` came before it",
    "unknown": "the first name is no person's, or the second no applicant's",
    "unassigned": "the person is not to review this applicant",
    "range": "the points are no whole number from 0 to 100 without leading zeros",
}


class Line:
    """A line of the run: its number from 1, its kind, and its words."""

    def __init__(self, number, kind, text):
        self.number, self.kind = number, kind
        text = text[:-1] if text.endswith("\r") else text
        self.words = [word for word in text.replace("\t", " ").split(" ") if word]


class Audit:
    """An audit of a run that came to its report. `reviews` are its review lines, and `report` is what it wrote."""

    def __init__(self, rows):
        self.at, self.reviews, self.report = 0, [], None
        self.rows, found = rows, {}
        self.header()
        for _ in range(len(rows) - 2):
            self.line()
        found = self.row()
        self.need(list(found) == ["report"] and isinstance(found["report"], str), "the row with the report is wanted")
        self.need(found["report"].startswith("call "), "its run came to no report: `%s`" % reports.shown(
            found["report"].split("\n")[0]))
        try:
            self.report = reports.read_report(found["report"].encode("latin-1", "replace"))
        except reports.NotUnderstood as error:
            self.need(False, "of its report %s" % error)
        counts = dict.fromkeys(reports.KINDS, 0)
        for line in self.reviews:
            if line.kind != "none":
                counts[line.kind] += 1
        self.need(counts == self.report.aside, "its report counts other lines set aside than stand before it")

    def row(self):
        """The next row as an object."""
        row = self.rows[self.at] if self.at < len(self.rows) else None
        self.at += 1
        self.need(row is not None, "the audit ends before it")
        try:
            found = json.loads(row)
        except (ValueError, RecursionError):
            found = None
        self.need(isinstance(found, dict), "`%s`, and a row of an audit is wanted" % reports.shown(row))
        return found

    def need(self, holds, what):
        if not holds:
            raise reports.NotUnderstood(self.at, what)

    def header(self):
        found = self.row()
        version = found.pop("version", None)
        self.need(found == HEADER and type(version) is int and version in (1, 2), "the header of an audit is wanted")
        self.version = version

    def line(self):
        found = self.row()
        keys = sorted(found)
        is_text = self.version == 2 and keys == ["aside", "digest", "line", "text"]
        is_line = is_text or keys == ["aside", "digest", "hex", "line"]
        self.need(is_line, "a line has `aside`, `digest`, `line` and its bytes, as `text` or `hex`")
        kind, number = found["aside"], found["line"]
        self.need(kind == "none" or kind in reports.KINDS, "`aside` is a kind, or `none`")
        digest = found["digest"]
        self.need(isinstance(digest, str) and re.fullmatch("[0-9a-fA-F]{64}", digest), "`digest` has 64 digits")
        self.need(type(number) is int and number == self.at - 1, "this has to be line %d" % (self.at - 1))
        line = Line(number, kind, self.text_of(found))
        is_review = line.words[:1] == ["review"]
        self.need(is_review or kind == "none", "only a line `review` is set aside")
        self.need(not is_review or kind != "none" or len(line.words) == 4, "a review line that counts has 4 words")
        if is_review:
            self.reviews.append(line)

    def text_of(self, found):
        text = found.get("text", found.get("hex"))
        self.need(isinstance(text, str), "the bytes of a line are a text")
        if "hex" in found:
            self.need(re.fullmatch("([0-9a-fA-F]{2})*", text), "`hex` has two digits for each byte")
            text = bytes.fromhex(text).decode("latin-1")
        self.need("\n" not in text, "a line has no line feed")
        return text


def read_audit(data):
    rows = reports.lines_of(data, "the audit")
    if len(rows) > MOST_LINES + 2:
        raise reports.NotUnderstood(MOST_LINES + 2, "an audit has at most %d lines" % MOST_LINES)
    if len(rows) < 2:
        raise reports.NotUnderstood(len(rows) + 1, "the audit ends before it")
    return Audit(rows)
