"""Histories of calls as text, the way crates/history_play plays them: each line, and what it must print by the reference."""
from pathlib import Path
import sys

from digests import digest
import reference as ref

CRATES = Path(__file__).resolve().parent.parent / "crates"
TEXT = 131_072
WORK = ref.WORK_WORDS
SCRATCH = 20


def expect(found, wanted):
    """Histories are written for a certain end, as a refusal 7."""
    if found != wanted:
        raise ValueError(f"found {found}, expected {wanted}")


def slots(words, used):
    return "|", used, *words[:used], *digest(words[used:])


def coded(clause_words):
    return list(map(ref.literal_word, clause_words))


class Play:
    """Writes histories line by line, plays each line over the reference and keeps what it must print."""

    def __init__(self, store_words, clause_words):
        self.lines, self.printed, self.brief = [], [], False
        self.buffers = [0] * store_words, [0] * clause_words, [0] * WORK

    # lines that are no calls

    def history(self, title):
        self.line("#", title)
        self.printed.append(f"# {title}")
        self.state, self.lits, self.weights, self.lengths = ref.ZERO, [], [], (0, 0, 0)

    def line(self, *words):
        self.lines.append(" ".join(map(str, words)))

    def inputs(self, lits, weights):
        for literal, weight in zip(lits, weights):
            self.line("i", literal, weight)
        for literal in lits[len(weights) :]:
            self.line("x", literal)
        self.lits, self.weights = self.lits + list(lits), self.weights + list(weights)

    def lend(self, store_words, clause_words, work_words=WORK):
        self.line("l", store_words, clause_words, work_words)
        self.lengths = store_words, clause_words, work_words
        expect(all(length <= len(words) for length, words in zip(self.lengths, self.buffers)), True)

    def fill(self, word):
        self.line("f", word)
        for words, used in zip(self.lent(), self.used()):
            words[used:] = [word] * (len(words) - used)
            self.keep(words)

    def alter(self, place, word):
        self.line("a", place, word)
        self.buffers[0][place] = word

    # what is lent

    def lent(self):
        self.kept = 0
        return [words[:length] for words, length in zip(self.buffers, self.lengths)]

    def keep(self, words):
        """The next of the buffers, in order, holds these words at its front."""
        self.buffers[self.kept][: len(words)] = words
        self.kept += 1

    def keep_all(self, *lent):
        self.kept = 0
        for words in lent:
            self.keep(words)

    def used(self):
        store_words, clause_words, _ = self.lengths
        records = store_words if store_words // 8 < self.state.records else 8 * self.state.records
        return records, min(clause_words, self.state.words), 0

    # calls

    def say(self, *parts):
        self.printed.append(" ".join([f"{self.lines[-1]}:", *map(str, parts)]))

    def letter(self, small):
        """The letter of a call; a capital where only its refusal number is to be printed."""
        return small.upper() if self.brief else small

    def say_state(self, *answers):
        if self.brief:
            self.say(answers[0])
            return answers[0]
        *numbers, tares, tares_used, buckets, buckets_used = self.state
        store, clauses, work = self.lent()
        records, words, _ = self.used()
        clauses = coded(clauses)
        self.say(
            *answers, *numbers, *slots(tares, tares_used), *slots(buckets, buckets_used),
            "|", *digest(store[:records]), *digest(store[records:]),
            "|", *digest(clauses[:words]), *digest(clauses[words:]), "|", *digest(work),
        )
        return answers[0]

    def start(self, first):
        self.line(self.letter("s"), first)
        store, clauses, work = self.lent()
        refusal, self.state = ref.start(self.lits, self.weights, first, store, clauses)
        self.keep_all(store, clauses, work)
        return self.say_state(refusal)

    def set(self, divisor):
        self.line(self.letter("p"), divisor)
        refusal, self.state = ref.set_precision(self.state, *self.lent()[:2], divisor)
        return self.say_state(refusal)

    def encode(self, lo, end):
        self.line(self.letter("e"), lo, end)
        lent = self.lent()
        refusal, self.state = ref.encode_ub_change(self.state, *lent, lo, end)
        self.keep_all(*lent)
        return self.say_state(refusal, self.state.clauses, self.state.variables)

    def enforce(self, u, words=SCRATCH):
        self.line("u", u, words)
        scratch = [7] * SCRATCH
        front = scratch[:words]
        refusal, answer = ref.enforce_ub(self.state, *self.lent()[:2], front, u)
        self.say(refusal, len(answer), *coded(answer), "|", *digest(coded(front + scratch[words:])))
        return refusal

    def told(self, refusal, answer):
        self.say(f"r{refusal}" if refusal else int(answer))

    def coarse(self, u):
        self.line("c", u)
        self.told(*ref.coarse_ub(self.state, *self.lent()[:2], u))

    def next(self):
        self.line("n")
        self.told(*ref.next_precision(self.state, *self.lent()[:2]))

    def max(self):
        self.line("m")
        self.told(*ref.is_max_precision(self.state, *self.lent()[:2]))

    def show(self):
        self.line("w")
        store, clauses, _ = self.lent()
        self.say(*store, "|", *coded(clauses))

    # what several histories do

    def began(self, title, weights, first=None, lits=None, records=200, words=2000, divisor=1):
        """A history's title, inputs, room for so much, every lent word 9, its start and, unless it is None, a divisor."""
        lits = lits or list(range(1, len(weights) + 1))
        self.history(title)
        self.inputs(lits, weights)
        self.lend(8 * records, words)
        self.fill(9)
        first = first or max(map(abs, lits), default=0) + 1
        if divisor is None:
            return self.start(first)
        self.brief = True
        expect(self.start(first), 0)
        self.brief = False
        return self.set(divisor)

    def whole(self):
        """A range that reaches every output there is."""
        return 0, self.state.sum // self.state.set + 1

    def reached(self, lo, end):
        """The state that an encode reaches if it has room."""
        build = ref.Build(self.state, self.buffers[0][: 8 * self.state.records])
        ref.encode(build, lo, end)
        return build.reached(self.state)

    def asked(self, bounds):
        for u in bounds:
            self.enforce(u)
        for u in bounds:
            self.coarse(u)
        self.next()
        self.max()

    def refused_then_accepted(self, lo, end, records, words):
        """The call with this much room, which is too little, then with all that it needs."""
        need = self.reached(lo, end)
        self.lend(8 * records + 7, words)
        self.fill(9)
        expect(self.encode(lo, end), 7)
        self.lend(8 * need.records, need.words)
        self.fill(8)
        expect(self.encode(lo, end), 0)


def texts(crate, play):
    """What the program of a crate reads and what it must print, by file."""
    expect(sum(len(line) + 1 for line in play.lines) <= TEXT, True)
    for name, lines in (("stdin", play.lines), ("stdout", play.printed)):
        yield CRATES / crate / name, "\n".join(lines) + "\n"


def write_or_check(files):
    """Says whether each of these files has its text, or with --write writes them; the exit status."""
    words = sys.argv[1:]
    if words not in ([], ["--write"]):
        print(f"{sys.argv[0]}: it takes --write or nothing, and was given: {' '.join(words)}", file=sys.stderr)
        return 2
    right = True
    for file, text in files:
        if words:
            file.write_text(text)
        agrees = file.is_file() and file.read_text() == text
        right = right and agrees
        print(f"{file.parent.name}/{file.name}: {'as' if agrees else 'NOT as'} the reference says, {text.count(chr(10))} lines")
    return 0 if right else 1
