"""The inputs of the bench: for each kind the largest that the limits allow, and calls of other sizes.

Each maker gives the bytes of a command file. Applicants are their own persons where it is not said otherwise. Run as a
program, with the number of an input in `LARGEST`, or of one in `GROWING` and the number of applicants, it writes that
input: so the process that measures stays small.
"""
import hashlib
import random
import sys

MOST_APPLICANTS, MOST_REVIEWS = 1_000, 20
MOST_BYTES, MOST_LINES = 16_777_216, 1_048_576
LETTERS = "abcdefghijklmnopqrstuvwxyz"
SIGNS = LETTERS + "0123456789-"


def short_names(count):
    """Names of two bytes, and where these end, of three."""
    names = [first + second for first in LETTERS for second in SIGNS]
    names += ["a" + second + third for second in SIGNS for third in SIGNS]
    return names[:count]


def in_turn(clusters):
    """Places go to the clusters in turn."""
    return lambda place: place % clusters + 1


def with_large(size, count):
    """The last `size` of `count` places are in cluster 1, the others in the clusters 2 to 10 in turn."""
    return lambda place: 1 if place >= count - size else place % 9 + 2


def opening(names, cluster, seats=100, clusters=10, reviews=MOST_REVIEWS):
    lines = [f"call {seats} {clusters} {reviews}"]
    lines += [f"applicant {name}" for name in names]
    return lines + [f"place {name} {cluster(place)}" for place, name in enumerate(names)]


def nearest(names, clusters):
    """The pairs of the first assignment where the clusters are in turn and as large as each other."""
    count, steps, step = len(names), [], 0
    while len(steps) < MOST_REVIEWS:
        step += 1
        if step % clusters:
            steps.append(step)
    return [(names[r], names[(r + step) % count]) for r in range(count) for step in steps]


def barred(names, share, chance):
    return [f"conflict {r} {p}" for r in names for p in names if r != p and chance.random() < share]


def text(lines, ending=("close", "draw 1234567")):
    return ("\n".join([*lines, *ending]) + "\n").encode()


def filled_up(head, choices, ending, chance):
    """The head, lines chosen at random as long as the limits allow them, and the ending."""
    room = MOST_BYTES - len("\n".join([*head, *ending])) - 2
    lines = []
    for line in chance.choices(choices, k=MOST_LINES - len(head) - len(ending)):
        room -= len(line) + 1
        if room < 0:
            break
        lines.append(line)
    return text(head + lines, ending)


def by_hand(count, clusters):
    """All pairs by hand, and a review for each."""
    names = short_names(count)
    pairs = nearest(names, clusters)
    lines = opening(names, in_turn(clusters), clusters=clusters) + [f"pair {r} {p}" for r, p in pairs] + ["assign"]
    return text(lines + [f"review {r} {p} {7 * place % 101}" for place, (r, p) in enumerate(pairs)])


def computed(count, cluster, share=0.0, clusters=10):
    """The assignment is computed, with a share of all pairs barred."""
    names, chance = short_names(count), random.Random(count)
    conflicts = barred(names, share, chance) if share else []
    return text(opening(names, cluster, clusters=clusters) + conflicts + ["assign"])


def reviews_to_the_limits():
    """Review lines that are kept, on the pairs of a computed assignment, a million of them."""
    names, chance = short_names(MOST_APPLICANTS), random.Random(1)
    choices = [f"review {r} {p} {chance.randrange(101)}" for r, p in nearest(names, 10) for _ in range(3)]
    return filled_up(opening(names, in_turn(10)) + ["assign"], choices, ("close", "draw 1234567"), chance)


def set_aside_to_the_limits():
    """Review lines of which most are set aside: pairs that are not assigned, points out of range, strangers."""
    names, chance = short_names(MOST_APPLICANTS), random.Random(2)
    choices = [f"review {chance.choice(names)} {chance.choice(names)} {chance.randrange(110)}" for _ in range(50_000)]
    choices += [f"review {chance.choice(names)} nobody 50" for _ in range(5_000)]
    return filled_up(opening(names, in_turn(10)) + ["assign"], choices, ("close", "draw 1234567"), chance)


def conflicts_to_the_limits():
    """Conflict lines, many of them repeated, that bar less than half of all pairs."""
    names, chance = short_names(MOST_APPLICANTS), random.Random(3)
    ending = ("assign", "close", "draw 1234567")
    return filled_up(opening(names, in_turn(10)), barred(names, 0.45, chance), ending, chance)


def persons_and_seeds():
    """200 persons of five applicants, drawn clusters, a sealed lottery, and a review for each pair that there is."""
    people = short_names(MOST_APPLICANTS // 5)
    lines = ["call 1000 10 20"] + [f"applicant {who}-{number} {who}" for number in range(5) for who in people]
    lines += ["partition autumn", f"seal {hashlib.sha256(b'seal:winter').hexdigest()}", "assign"]
    lines += [f"review {who} {other}-{number} {(number + place) % 101}"
              for place, who in enumerate(people) for other in people for number in range(5)]
    return text(lines, ("close", "lottery winter"))


ALL_FORMS = ("run", "feasible", "pairs")
LARGEST = (     # the words, what the input is, and its maker
    (("run",), "one comment line, 16,777,216 bytes", lambda: b"#" * MOST_BYTES),
    (("run",), "1,048,576 lines `#`", lambda: b"#\n" * MOST_LINES),
    (ALL_FORMS, "20,000 pairs by hand, 20,000 reviews", lambda: by_hand(MOST_APPLICANTS, 10)),
    (("run",), "reviews up to the limits, kept", reviews_to_the_limits),
    (("run",), "reviews up to the limits, mostly set aside", set_aside_to_the_limits),
    (ALL_FORMS, "computed, 10 even clusters", lambda: computed(MOST_APPLICANTS, in_turn(10))),
    (ALL_FORMS, "computed, 30% of the pairs barred", lambda: computed(MOST_APPLICANTS, in_turn(10), 0.3)),
    (ALL_FORMS, "computed, conflicts up to the limits", conflicts_to_the_limits),
    (ALL_FORMS, "computed, half of the places in one cluster", lambda: computed(MOST_APPLICANTS, with_large(500, 1000))),
    (ALL_FORMS, "short: 501 places in one cluster", lambda: computed(MOST_APPLICANTS, with_large(501, 1000))),
    (ALL_FORMS, "200 persons of 5, drawn and sealed, 200,000 reviews", persons_and_seeds),
)
SIZES = (125, 250, 500, 1_000)
GROWING = (     # the word, what the input is, and its maker for a number of applicants
    ("run", "pairs and reviews by hand", lambda count: by_hand(count, 5)),
    ("run", "computed, 5 even clusters", lambda count: computed(count, in_turn(5), clusters=5)),
    ("run", "computed, 30% of the pairs barred", lambda count: computed(count, in_turn(5), 0.3, clusters=5)),
    ("run", "computed, half of the places in one cluster", lambda count: computed(count, with_large(count // 2, count))),
    ("feasible", "30% of the pairs barred", lambda count: computed(count, in_turn(5), 0.3, clusters=5)),
    ("pairs", "30% of the pairs barred", lambda count: computed(count, in_turn(5), 0.3, clusters=5)),
)


if __name__ == "__main__":
    index, *count = map(int, sys.argv[1:])
    made = GROWING[index][2](*count) if count else LARGEST[index][2]()
    sys.stdout.buffer.write(made)
