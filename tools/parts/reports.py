"""What the tools share: reading a report and the pairs, and saying which line is not understood."""
import re
import sys

KINDS = ("form", "early", "late", "unknown", "unassigned", "range")
NAME = "[a-z][a-z0-9-]{0,23}"
NUMBER = "(0|[1-9][0-9]{0,17})"
MOST_BYTES = 268_435_456


class NotUnderstood(Exception):
    """What is wrong with a file, and with which of its lines, where it is one."""

    def __init__(self, line, what):
        super().__init__("line %d is not understood: %s" % (line, what) if line else what)
        self.line = line


class Cluster:
    """A line `cluster` of a report."""

    def __init__(self, number, cents, quota, seats, filled):
        self.number, self.cents, self.quota, self.seats, self.filled = number, cents, quota, seats, filled
        self.empty = seats - filled


class Applicant:
    """A line `applicant` of a report."""

    def __init__(self, name, person, cluster, rank, cents, chance, selected):
        self.name, self.person, self.cluster, self.rank = name, person, cluster, rank
        self.cents, self.chance, self.selected = cents, chance, selected


class Report:
    """A report, line by line. `of` is what quotas, chances and the draw are counted over."""

    def __init__(self, lines):
        self.lines, self.at = lines, 0
        self.seats, self.number_of_clusters, self.reviews = self.numbers("call N N N")
        self.has_persons = lines[1:2] != [] and " persons " in lines[1]
        counts = self.numbers("applicants N persons N" if self.has_persons else "applicants N")
        self.count, self.persons = counts[0], counts[-1]
        self.aside = dict(zip(KINDS, self.numbers("aside N N N N N N")))
        self.draw, self.of = self.numbers("draw N/N")
        self.need(self.draw < self.of, "the draw has to be below %d" % self.of)
        self.clusters = [self.cluster(number) for number in range(1, self.number_of_clusters + 1)]
        self.applicants, self.by_name = [], {}
        for _ in range(self.count):
            self.applicant()
        self.empty, = self.numbers("empty N")
        self.need(self.empty == sum(it.empty for it in self.clusters), "the clusters have other empty seats together")
        if self.at < len(lines):
            raise NotUnderstood(self.at + 1, "nothing may stand behind the line `empty`")

    def match(self, form):
        """The parts of the next line, which has to be of a form: N stands for a number, W for a name."""
        line = self.lines[self.at] if self.at < len(self.lines) else None
        self.at += 1
        wanted = re.sub(r"\bN\b", "NUMBER", re.sub(r"\bW\b", "NAME", form))
        if line is None:
            raise NotUnderstood(self.at, "the report ends before it, and `%s` is wanted" % wanted)
        pattern = re.sub(r"\bN\b", NUMBER, re.sub(r"\bW\b", "(%s)" % NAME, form))
        parts = re.fullmatch(pattern, line)
        if not parts:
            raise NotUnderstood(self.at, "`%s`, and `%s` is wanted" % (shown(line), wanted))
        return parts.groups()

    def numbers(self, form):
        return [int(part) for part in self.match(form)]

    def need(self, holds, what):
        if not holds:
            raise NotUnderstood(self.at, what)

    def cluster(self, number):
        found, cents, quota, of, seats, filled = self.numbers("cluster N cents N quota N/N seats N filled N")
        self.need(found == number, "cluster %d is wanted" % number)
        self.need(of == self.of, "the draw is over %d, and this is over %d" % (self.of, of))
        self.need(filled <= seats, "more seats are filled than there are")
        return Cluster(number, cents, quota, seats, filled)

    def applicant(self):
        behind = " cluster N rank N cents N chance N/N (yes|no)"
        line = self.lines[self.at] if self.at < len(self.lines) else ""
        named = "applicant W person W" if line.split(" ")[2:3] == ["person"] else "applicant W"
        parts = list(self.match(named + behind))
        if named == "applicant W":
            parts.insert(1, parts[0])
        name, person, (cluster, rank, cents, chance, of) = parts[0], parts[1], map(int, parts[2:7])
        self.need(name not in self.by_name, "there is a line of this applicant already")
        self.need(1 <= cluster <= self.number_of_clusters, "there is no cluster %d" % cluster)
        self.need(of == self.of, "the draw is over %d, and this is over %d" % (self.of, of))
        self.need(chance <= of, "a chance is at most %d" % of)
        self.by_name[name] = Applicant(name, person, cluster, rank, cents, chance, parts[7] == "yes")
        self.applicants.append(self.by_name[name])


def printable(line):
    """A line without what a terminal would take for more than text."""
    return "".join(it if it.isascii() and it.isprintable() else "?" for it in line)


def shown(line):
    """The begin of a line, as it can be printed."""
    line = printable(line[:200])
    return line if len(line) <= 60 else line[:60] + " .."


def lines_of(data, what):
    """The lines of a text that a program wrote: each ends with LF."""
    lines = data.decode("latin-1").split("\n")
    if lines.pop():
        raise NotUnderstood(len(lines) + 1, "it has no line end, so that the end of %s is missing" % what)
    return lines


def read(file):
    """The bytes of a file; of standard input for `-`."""
    with open(0 if file == "-" else file, "rb") as source:
        data = source.read(MOST_BYTES + 1)
    if len(data) > MOST_BYTES:
        raise NotUnderstood(0, "the file has more than %d bytes" % MOST_BYTES)
    return data


def read_report(data):
    return Report(lines_of(data, "the report"))


def read_pairs(data):
    """Each person with the applicants that it is to review, both in the order of the lines."""
    given = {}
    for at, line in enumerate(lines_of(data, "the pairs"), 1):
        parts = re.fullmatch("pair (%s) (%s)" % (NAME, NAME), line)
        if not parts:
            raise NotUnderstood(at, "`%s`, and `pair PERSON APPLICANT` is wanted" % shown(line))
        of_person = given.setdefault(parts.group(1), [])
        if parts.group(2) in of_person:
            raise NotUnderstood(at, "this pair stands before it already")
        of_person.append(parts.group(2))
    if not given:
        raise NotUnderstood(1, "there are no pairs")
    return given


def so_called(form):
    return NotUnderstood(0, "it is called so: tools/%s; with --help it says more" % form)


def answer(name, text, work):
    """Runs a tool: answers --help with its text, and writes what `work` gives for the words."""
    words = sys.argv[1:]
    if words[:1] in (["--help"], ["-h"]):
        print(text.strip())
        sys.exit(0)
    try:
        made = work(words).encode()
        with open(1, "wb", closefd=False) as out:
            out.write(made)
    except (NotUnderstood, OSError) as error:
        told = "%s: %s" % (error.filename, error.strerror) if getattr(error, "filename", None) else error
        print("%s: %s" % (name, told), file=sys.stderr)
        sys.exit(2)


def tool(form, text, work):
    """Runs a tool that has one form of words."""
    name, *wanted = form.split()

    def of_words(words):
        if len(words) != len(wanted):
            raise so_called(form)
        return work(*words)

    answer(name, text, of_words)
