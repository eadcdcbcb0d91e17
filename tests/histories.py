"""Histories of calls: how one is played over the reference, how a random one is written.

A step is a tuple, so that a history can be kept, replayed and shrunk. The calls are start, set, next, max, encode,
enforce and coarse; `lend` changes the lengths of the lent slices, `alter` one word of the store or the state, `hold`
puts a state, a store and a clause buffer in the caller's hands.
"""
from collections import namedtuple

import reference as ref

JUNK = 9
# The rules list the inputs; a state that claims millions is no difference, yet too long to compute.
MOST_INPUTS_COMPUTED = 600
WORD_32, WORD_64 = 2**32 - 1, 2**64 - 1

# What a caller holds and lends; `lent` is the work slice or the scratch, where the call takes one.
Lent = namedtuple("Lent", "state store clauses lent")
Call = namedtuple("Call", "step refusal answer before after")


def lent_anew(words, length):
    return words[:length] + [JUNK] * (length - len(words))


class World:
    """One caller's state, store and clause buffer."""

    def __init__(self):
        self.state, self.store, self.clauses, self.lits, self.weights = ref.ZERO, [], [], [], []

    def play(self, step):
        """Plays the step; answers the call, or None where the step is none."""
        name, args = step[0], step[1:]
        if name == "lend":
            self.store, self.clauses = lent_anew(self.store, args[0]), lent_anew(self.clauses, args[1])
        elif name == "alter":
            self.alter(*args)
        elif name == "hold":
            self.hold(*args)
        else:
            return self.start(step) if name == "start" else self.call(step, *args)

    def hold(self, fields, store, clauses):
        *numbers, tares, tares_used, buckets, buckets_used = fields
        self.state = ref.State(*numbers, tuple(tares), tares_used, tuple(buckets), buckets_used)
        self.store, self.clauses, self.lits = list(store), list(clauses), []
        self.weights = [entry.weight for entry in ref.Build(self.state, self.store).waiting]

    def alter(self, field, place, word):
        if field == "store":
            self.store[place] = word
        elif field in ("tares", "buckets"):
            slots = list(getattr(self.state, field))
            slots[place] = word
            self.state = self.state._replace(**{field: tuple(slots)})
        else:
            self.state = self.state._replace(**{field: word})

    def altered_from(self, field, place):
        """The word that an alteration of this place would overwrite."""
        if field == "store":
            return self.store[place]
        word = getattr(self.state, field)
        return word[place] if field in ("tares", "buckets") else word

    def start(self, step):
        _, lits, weights, first, store_words, clause_words = step
        store, clauses = [JUNK] * store_words, [JUNK] * clause_words
        before = Lent(None, tuple(store), tuple(clauses), ())
        refusal, state = ref.start(lits, weights, first, store, clauses)
        if refusal == 0:
            self.state, self.store, self.clauses = state, store, clauses
            self.lits, self.weights = ref.combined(lits, weights)
        return Call(step, refusal, None, before, Lent(state, tuple(store), tuple(clauses), ()))

    def call(self, step, *args):
        name = step[0]
        lent = [JUNK] * args[-1] if name in ("encode", "enforce") else []
        before = self.lent(lent)
        held, answer = (self.state, self.store, self.clauses), None
        if name == "set":
            refusal, self.state = ref.set_precision(*held, *args)
        elif name == "next":
            refusal, answer = ref.next_precision(*held)
        elif name == "max":
            refusal, answer = ref.is_max_precision(*held)
        elif name == "encode":
            refusal, self.state = ref.encode_ub_change(*held, lent, *args[:2])
        elif name == "enforce":
            refusal, answer = ref.enforce_ub(*held, lent, args[0])
        else:
            refusal, answer = ref.coarse_ub(*held, *args)
        return Call(step, refusal, answer, before, self.lent(lent))

    def lent(self, lent):
        return Lent(self.state, tuple(self.store), tuple(self.clauses), tuple(lent))

    def is_well_formed(self):
        return ref.well_formed(self.state, self.store, self.clauses)

    def reached_by(self, lo, end):
        """The state that an encode would reach had it room, or None where it does nothing."""
        if not self.is_well_formed() or lo >= end or self.state.inputs < 2:
            return None
        build = ref.Build(self.state, self.store)
        if self.state.built == 0 and self.state.set > build.largest_weight():
            return None
        ref.encode(build, lo, end)
        return build.reached(self.state)


def play(steps):
    """The calls of a history."""
    world = World()
    return [call for call in map(world.play, steps) if call is not None]


# ---- Random histories


class Writer:
    """Writes one history, playing it as it goes.

    `small` writes for tests/agree: few inputs, short slices, altered words; else for tests/brute.
    """

    def __init__(self, rng, small):
        self.rng, self.small = rng, small
        self.world, self.steps, self.asked = World(), [], (0, 1)

    def step(self, *step):
        self.steps.append(step)
        return self.world.play(step)

    def write(self):
        rng = self.rng
        if rng.random() < 0.15:
            self.refused_start()
        if self.small and rng.random() < 0.25:
            records, fields = random_records(rng)
            self.step(*held(records, **fields))
        else:
            self.first_start()
            if rng.random() < 0.8:
                self.round()
        kinds = [self.round, self.finer_question, self.damage]
        kinds += [self.set, self.encode, self.enforce, self.coarse, self.ask]
        odds = [40, 12, 24, 8, 8, 10, 5, 5] if self.small else [40, 10, 0, 8, 12, 28, 2, 2]
        for _ in range(rng.randint(1, 4) if self.small else rng.randint(4, 12)):
            rng.choices(kinds, odds)[0]()
        if self.small and rng.random() < 0.3:
            for _ in range(4):
                self.damage()
        if rng.random() < 0.15:
            self.meet_the_last_number()
        return self.steps

    # start

    def lawful_lists(self):
        rng = self.rng
        count = rng.choice([2, 2, 3, 3, 3, 4, 4, 5] * 2 + [0, 1])
        if not self.small:
            count = rng.randint(rng.choice([1, 2, 2, 2]), rng.choice([2, 4, 8, 12]))
        highest = rng.choice([count, count + 2, 2 * count])
        lits = [sign * variable for variable in range(1, highest + 1) for sign in (1, -1)]
        lits = rng.sample(lits, count)
        if rng.random() < 0.6:
            lits = [literal for n, literal in enumerate(lits) if -literal not in lits[:n]]
        most = rng.choice([1, 3, 7, 7, 15, 15, 31, 31, 100, 1000, ref.MOST_WEIGHT])
        weights = [rng.choice([rng.randint(1, most), 1 << rng.randrange(most.bit_length()), most]) for _ in lits]
        if rng.random() < 0.2:
            weights = [rng.choice(weights[:2]) for _ in weights]
        if rng.random() < 0.25:
            shift = rng.randint(1, 3)
            weights = [min(weight, ref.MOST_WEIGHT >> shift) << shift for weight in weights]
        for _ in range(rng.choice([0, 0, 0, 1, 1, 3])):
            lits, weights = self.named_again(lits, weights)
        return lits, weights

    def named_again(self, lits, weights):
        """The same combined list by one line more: a part of some line's weight stands in a line of its own."""
        heavy = [n for n, weight in enumerate(weights) if weight > 1]
        if not heavy:
            return lits, weights
        at = self.rng.choice(heavy)
        place, part = self.rng.randint(at + 1, len(lits)), self.rng.randint(1, weights[at] - 1)
        weights = replaced(weights, at, weights[at] - part)
        return lits[:place] + [lits[at]] + lits[place:], weights[:place] + [part] + weights[place:]

    def first_start(self):
        lits, weights = self.lawful_lists()
        first = max(map(abs, lits), default=0) + self.rng.choice([1, 1, 1, 2, 10])
        store_words = 16 * len(set(lits)) + self.rng.choice([0, 0, 3, 8, 21])
        self.step("start", lits, weights, first, store_words, self.rng.choice([0, 1, 5]))

    def refused_start(self):
        """One or two faults, so that the order of refusals shows."""
        rng = self.rng
        lits, weights = self.lawful_lists()
        if len(lits) < 2:
            lits, weights = [3, -1], [2, 5]
        first, store_words = max(map(abs, lits)) + 1, 16 * len(set(lits))
        at = rng.randrange(len(lits))
        for fault in rng.sample([1, 2, 4, 4, 5, 7], rng.choice([1, 1, 2])):
            if fault == 1 and rng.random() < 0.1:
                lits, weights, first = list(range(1, 258)), [1] * 257, 258
            elif fault == 1:
                weights = weights + [1] if rng.random() < 0.5 else weights[:-1]
            elif fault == 2:
                lits = replaced(lits, at, rng.choice([0, 1_000_000_001, -1_000_000_001, -(2**31), 2**31 - 1]))
            elif fault == 4 and rng.random() < 0.5:
                lits, weights = lits + [lits[at]], weights + [ref.MOST_WEIGHT - rng.choice([0, 0, 1, 2])]
            elif fault == 4:
                weights = replaced(weights, at % len(weights), rng.choice([0, ref.MOST_WEIGHT + 1, 2**40, WORD_64]))
            elif fault == 5:
                first = rng.choice([0, 1_000_000_001, WORD_32, first - 1])
            else:
                store_words = rng.choice([16 * len(set(lits)) - 1, 0])
        self.step("start", lits, weights, first, store_words, rng.choice([0, 2]))

    # the later calls

    def round(self):
        """What a planner does: a finer divisor, an encode, some bounds."""
        rng, state = self.rng, self.world.state
        top = max(self.world.weights, default=1) if state.built == 0 else max(1, state.set)
        if self.world.is_well_formed() and rng.random() < 0.7:
            top = ref.next_precision(state, self.world.store, self.world.clauses)[1]
        powers = range(top.bit_length())
        power = max(rng.choice(powers) for _ in range(3 if state.built == 0 else 2))
        self.step("set", 1 << min(63, power + (rng.random() < 0.06)))
        self.encode()
        for _ in range(rng.randint(0, 2) if self.small else rng.randint(0, 5)):
            self.enforce()

    def finer_question(self):
        """A divisor below the built one that no waiting weight reaches, and some bounds."""
        rng, state = self.rng, self.world.state
        if self.world.is_well_formed():
            least = ref.Build(state, self.world.store).largest_weight().bit_length()
            most = max(state.built, 1).bit_length() - 1
            self.step("set", 1 << rng.randint(min(least, most), most))
        for _ in range(2):
            self.enforce()

    def ask(self):
        self.step(self.rng.choice(["next", "max"]))

    def set(self):
        rng, state = self.rng, self.world.state
        power = max(state.set, 1).bit_length() - 1
        lower = 1 << rng.randint(0, power)
        top = max(self.world.weights, default=1)
        divisor = rng.choice(
            [lower, lower, lower, 1, 0, 1 << rng.randrange(top.bit_length()), 1 << rng.randrange(top.bit_length() + 1)]
            + [state.set, 2 * state.set, 2 * top, rng.choice([3, 6, 2**63, WORD_64, rng.randrange(50)])]
        )
        self.step("set", min(divisor, WORD_64))

    def scaled_sum(self):
        return self.world.state.sum // max(self.world.state.set, 1)

    def range_asked(self):
        rng, top = self.rng, self.scaled_sum()
        weight = 1 << min(self.world.state.tares_used, 19)
        lo = rng.randint(0, top)
        if self.world.state.built and self.world.is_well_formed() and rng.random() < 0.7:
            build = ref.Build(self.world.state, self.world.store)
            values = range(1, build.root_maximum() + 1)
            undefined = [value for value in values if (build.buckets[0], value) not in build.outputs]
            lo = min(top, (rng.choice(undefined or [1]) - 1) * weight + rng.randrange(weight))
        lo, end = rng.choice(
            [(lo, lo + 1)] * 5
            + [(lo, rng.randint(lo, top + 1)), (lo // weight * weight, lo // weight * weight + weight), (0, top + 1)]
            + [(0, 1), (lo, min(WORD_64, rng.choice([top + 5, WORD_64])))]
            + [rng.choice([(lo, lo), (lo + 1, lo), (top + 1, top + 9), (WORD_64 - 1, WORD_64), (WORD_64, 0)])]
        )
        return min(lo, WORD_64), min(end, WORD_64)

    def encode(self):
        rng = self.rng
        lo, end = self.range_asked()
        reached = self.world.reached_by(lo, end)
        if reached is not None and reached.words > (400 if self.small else 20_000):
            return
        if reached in (None, self.world.state) and self.world.state.built and rng.random() < 0.6:
            return
        work_words = ref.WORK_WORDS if rng.random() < 0.93 else rng.choice([0, ref.WORK_WORDS - 1, ref.WORK_WORDS + 1])
        if not self.world.is_well_formed() and rng.random() < 0.8:
            work_words = 5
        if reached is not None:
            short = rng.choice([None, None, None, "both", "records", "words"])
            records = reached.records - (short in ("records", "both"))
            self.lend(records, reached.words - (short in ("words", "both")), rng.choice([0, 0, 1]))
        self.asked = (lo, end)
        refusal = self.step("encode", lo, end, work_words).refusal
        if refusal == 7 and rng.random() < 0.7:
            self.lend(reached.records, reached.words, 0)
            self.step("encode", lo, end, work_words)
        elif rng.random() < 0.08:
            self.step("encode", lo, end, ref.WORK_WORDS)

    def lend(self, records, words, more):
        """Lends room for these, yet never less than what is in use."""
        state, rng = self.world.state, self.rng
        used = 8 * min(state.records, len(self.world.store) // 8), min(state.words, len(self.world.clauses))
        words_of_records = 8 * (records + more) + rng.choice([0, 0, 0, 7])
        self.step("lend", max(used[0], words_of_records), max(used[1], words + more))

    def enforce(self):
        rng, state, top = self.rng, self.world.state, self.scaled_sum()
        weight = 1 << min(state.tares_used, 19)
        ratio = max(1, state.built // max(state.set, 1))
        near = rng.randint(0, top // (weight * ratio) + 1) * weight * ratio + rng.choice([-1, 0, 1, ratio])
        lo, end = self.asked
        asked = rng.randint(lo, max(lo, min(end, top) - 1)) * ratio + rng.randrange(ratio)
        u = rng.choice([asked] * 6 + [rng.randint(0, top), near, rng.choice([top, state.sum, state.sum - 1, WORD_64])])
        u = min(max(u, 0), WORD_64)
        exact = 1
        if self.world.is_well_formed():
            exact = len(ref.assumptions(state, ref.Build(state, self.world.store), u)[1])
        lengths = [20, 20, 20, exact, max(0, exact - 1), exact + 2, 0] if self.small else [20]
        self.step("enforce", u, rng.choice(lengths))

    def coarse(self):
        rng, state = self.rng, self.world.state
        weight = 1 << min(state.tares_used, 19)
        near = max(0, rng.randint(0, 4) * weight + rng.choice([-2, -1, 0, 1]))
        self.step("coarse", rng.choice([near, near, rng.randint(0, state.sum), WORD_64, WORD_64 - 1]))

    # altered words

    def damage(self):
        """A word altered and a call; then the word put back, unless all is still well formed."""
        rng, world = self.rng, self.world
        field, place, most = self.place_to_alter()
        old = world.altered_from(field, place)
        links = [rng.randrange(world.state.records + 1), rng.choice(world.state.buckets), rng.choice(world.state.tares)]
        word = rng.choice(
            [old + 1, old - 1, old ^ 1, 2 * old, old // 2, old + 8, 0, 1, 2, 3, 4, 5, 6, 256, 257, 513, most]
            + [ref.MOST_WEIGHT + 1, 2 * ref.MOST_VARIABLE, 2 * ref.MOST_VARIABLE + 2, ref.MOST_VARIABLE + 1] + 2 * links
        )
        self.step("alter", field, place, min(max(word, 0), most))
        rng.choice([self.ask, self.coarse, self.coarse, self.coarse, self.set, self.enforce, self.encode])()
        if not world.is_well_formed() or rng.random() < 0.5:
            self.step("alter", field, place, old)

    def place_to_alter(self):
        rng, world = self.rng, self.world
        used = min(8 * world.state.records, len(world.store))
        if used and rng.random() < 0.7:
            return "store", rng.randrange(used), WORD_32
        field = rng.choice(ref.State._fields)
        if field in ("tares", "buckets"):
            slots, count = getattr(world.state, field), getattr(world.state, field + "_used")
            return field, min(rng.randrange(count + 2), len(slots) - 1), WORD_32
        if field == "inputs":
            return field, 0, MOST_INPUTS_COMPUTED
        return field, 0, WORD_64 if field in ("sum", "set", "built", "records", "words", "clauses") else WORD_32

    # numbers that run out

    def meet_the_last_number(self):
        """The same history with its first fresh number where one encode meets the largest variable, or just not."""
        calls = play(self.steps)
        taken = [call.after.state.variables for call in calls if call.step[0] == "encode" and call.refusal == 0]
        starts = [n for n, step in enumerate(self.steps) if step[0] == "start"]
        if not taken or not starts or any(step[0] in ("alter", "hold") for step in self.steps):
            return
        first = ref.MOST_VARIABLE + 1 - self.rng.choice(taken) + self.rng.choice([-1, 0, 0, 1, 1])
        at = starts[-1]
        if first <= ref.MOST_VARIABLE:
            self.steps[at] = self.steps[at][:3] + (first,) + self.steps[at][4:]


def replaced(items, at, item):
    return items[:at] + [item] + items[at + 1 :]


# ---- Stores that no call left, yet well formed or nearly so


def held(records, **fields):
    """The step that puts these records in a caller's hands; fields not named are those of an unbuilt state."""
    waiting = ref.of_kind(ref.Waiting, records)
    state = dict(inputs=0, sum=sum(entry.weight for entry in waiting), set=1, built=0, records=len(records))
    state.update(words=0, clauses=0, variables=0, fresh=100, tares=[], buckets=[])
    state.update(fields)
    tares, buckets = state.pop("tares"), state.pop("buckets")
    slots = [padded(tares, ref.TARES), len(tares), padded(buckets, ref.BUCKETS), len(buckets)]
    store = [word for record in records for word in ref.image(record)]
    return "hold", list(state.values()) + slots, store, [JUNK] * state["words"]


def padded(numbers, length):
    return numbers + [0] * (length - len(numbers))


class Records(list):
    """Records under way, with the numbers that outputs and tares take."""

    def __init__(self, lits):
        super().__init__(map(ref.Leaf, lits))
        self.fresh, self.outputs = max(map(abs, lits), default=0) + 1, set()

    def add(self, record):
        self.append(record)
        return len(self) - 1

    def join(self, left, right, halved=False):
        return self.add(ref.join_of(self, left, right, halved))

    def number(self):
        self.fresh += 1
        return self.fresh - 1

    def output(self, node, value):
        if (node, value) not in self.outputs:
            self.outputs.add((node, value))
            self.add(ref.Output(node, value, self.number()))

    def nodes(self, kinds, apart_from=()):
        return [n for n, record in enumerate(self) if isinstance(record, kinds) and n not in apart_from]


def random_records(rng):
    """Records of any lawful shape, and the fields of a state over them."""
    lits = [rng.choice([1, -1]) * rng.randint(1, 5) for _ in range(rng.choice([0, 1, 2, 2, 2, 3, 3, 4]))]
    records, tares, buckets = Records(lits), [], []
    records.add(ref.Dummy())
    for _ in range(rng.randint(0, 8)):
        joins = [join for join in records.nodes(ref.Join) if records[join].maximum]
        if joins and rng.random() < 0.4:
            join = rng.choice(joins)
            records.output(join, rng.randint(1, records[join].maximum))
        elif rng.random() < 0.2:
            records.add(rng.choice([ref.Dummy(), ref.Leaf(rng.choice([1, -1]) * rng.randint(1, 9))]))
        else:
            left, right = rng.choice(records.nodes(ref.NODES)), rng.choice(records.nodes(ref.NODES))
            if records[left].maximum + records[right].maximum <= 9:
                records.join(left, right, rng.random() < 0.3)
    fields = dict(inputs=len(lits), set=1 << rng.randrange(5))
    waiting = []
    if len(lits) < 2 or rng.random() < 0.3:
        waiting = [ref.Waiting(leaf, rng.choice([1, 2, 3, 5, 12, rng.randint(1, 99)])) for leaf in range(len(lits))]
        if rng.random() < 0.2:
            waiting.append(ref.Waiting(rng.choice(records.nodes(ref.NODES)), rng.randint(1, 20)))
        rng.shuffle(waiting)
    else:
        power = rng.randrange(6)
        tares = [records.number() for _ in range(rng.randrange(5))]
        waits = power > 0 and rng.random() < 0.8
        for depth in range(rng.randint(1, len(tares) + 1)):
            left = rng.choice(records.nodes(ref.NODES, buckets))
            if depth > 0:
                bucket = records.join(left, buckets[0], True)
            elif waits:
                bucket = records.join(left, rng.choice(records.nodes(ref.Dummy)), True)
            else:
                bucket = records.join(left, rng.choice(records.nodes((ref.Leaf, ref.Join))), rng.random() < 0.3)
            buckets.insert(0, bucket)
            for value in range(1, records[bucket].maximum + 1):
                if rng.random() < 0.4:
                    records.output(bucket, value)
        if waits:
            nodes = records.nodes(ref.NODES, buckets)
            waiting = [ref.Waiting(rng.choice(nodes), rng.randrange(1, 1 << power)) for _ in range(rng.randint(1, 4))]
        fields = dict(fields, built=1 << power, set=1 << rng.randint(0, power), sum=rng.choice([0, 7, 100, WORD_64]))
    fresh = rng.choice([records.fresh] * 5 + [records.fresh + 3, ref.MOST_VARIABLE + 1 - rng.randrange(8)])
    words = rng.choice([0, 7])
    fields.update(fresh=fresh, words=words, clauses=rng.choice([0, words]), variables=rng.randrange(min(fresh, 20)))
    return list(records) + waiting, dict(fields, tares=tares, buckets=buckets)


def boundary_histories():
    """Each bound that 01 names, met and passed by one."""
    for name, cases in BOUNDARIES:
        for case in cases:
            hold = BOUNDARY_STORES[name](case)
            more = ("lend", len(hold[2]) + 8 * 30, len(hold[3]) + 90)
            [asked] = play([hold, ("max",)])
            encode = ("encode", 0, 1, ref.WORK_WORDS if asked.refusal == 0 else 5)
            yield f"{name}, {case}", [hold, ("coarse", 5)] + [more, encode] * (len(hold[2]) < 800)
    widest = [("start", [1, 2], [1 << 19, 1], 3, 8 * 200, 400), ("set", 1), ("encode", 0, 1, ref.WORK_WORDS)]
    bounds = [("coarse", u) for u in (WORD_64, (1 << 19) - 1, 1 << 19)]
    yield "19 tares", widest + [("enforce", 0, 20), ("enforce", 0, 19)] + bounds
    for count in (256, 257):
        yield f"{count} inputs", [("start", list(range(1, count + 1)), [1] * count, count + 1, 16 * count, 0)]


def unbuilt_store(records, **fields):
    """Two inputs that wait, further records between."""
    return held([ref.Leaf(1), ref.Leaf(2)] + records + [ref.Waiting(0, 1), ref.Waiting(1, 6)], inputs=2, **fields)


def of_maximum(records, maximum):
    """A node of this maximum, over the leaf that is record 0."""
    if maximum == 1:
        return 0
    half = of_maximum(records, maximum // 2)
    node = records.join(half, half)
    return records.join(node, 0) if maximum % 2 else node


def built_store(left=1, waits=((0, 1),), right=ref.Dummy(), halved=True, more=(), **fields):
    """A root whose left link has the given maximum; `waits` are maxima and weights of what waits."""
    records = Records([1, 2])
    joined, waiting = of_maximum(records, left), []
    for maximum, weight in waits:
        waiting.append(ref.Waiting(of_maximum(records, maximum) if maximum else records.add(ref.Dummy()), weight))
    root = records.join(joined, records.add(right), halved)
    fields = dict(dict(inputs=2, set=1, built=4, buckets=[root]), **fields)
    return held(list(records) + list(more) + waiting, **fields)


def largest_node_store(maximum):
    records = Records([1, 2])
    of_maximum(records, maximum)
    return unbuilt_store(list(records)[2:])


def chain_store(links):
    """A root over a tall left side, in which each join but the first has a dummy at its right."""
    records = Records([1, 2])
    node, dummy = records.join(0, 1), records.add(ref.Dummy())
    for _ in range(links):
        node = records.join(node, dummy)
    root = records.join(node, 0)
    return held(list(records), inputs=2, built=1, buckets=[root])


def two_bucket_store(case):
    """Two buckets and what may or may not name them."""
    records = Records([1, 2])
    low = records.join(0, records.add(ref.Dummy()), True)
    root = records.join(low if case == "left link" else 1, low, case != "link not halved")
    if case == "another right link":
        records.join(0, low)
    if case == "another left link":
        records.join(root, 0)
    if case == "output":
        records.output(low, 1)
    waiting = ref.Waiting({"waiting entry": low, "waiting root": root}.get(case, 0), 1)
    return held(list(records) + [waiting], inputs=2, built=2, tares=[50], buckets=[root, low])


def output_store(numbers, places=((2, 1), (2, 2)), **fields):
    """Outputs of a join of both inputs."""
    outputs = [ref.Output(*place, number) for place, number in zip(places, numbers)]
    return unbuilt_store([ref.Join(0, 1, False, 2, 1)] + outputs, **fields)


BOUNDARY_STORES = {
    "maximum of a node": largest_node_store,
    "left maximum of a bucket": lambda maximum: built_store(left=maximum),
    "maxima that wait": lambda maximum: built_store(waits=((100, 1), (maximum - 100, 3))),
    "entries that wait": lambda count: built_store(waits=((0, 1),) * count),
    "weight that waits": lambda weight: built_store(waits=((1, weight),)),
    "weight that waits unbuilt": lambda weight: held([ref.Leaf(1), ref.Waiting(0, weight)], inputs=1),
    "tares and built divisor": lambda case: built_store(
        waits=(), right=ref.Leaf(3), tares=list(range(10, 10 + case[0])), built=case[1]
    ),
    "set divisor of a built state": lambda divisor: built_store(set=divisor),
    "set divisor of an unbuilt state": lambda divisor: unbuilt_store([], set=divisor),
    "next fresh number": lambda fresh: built_store(fresh=fresh),
    "variable total": lambda total: unbuilt_store([], fresh=10, variables=total),
    "clause total": lambda total: unbuilt_store([], words=7, clauses=total),
    "variable of a leaf": lambda variable: unbuilt_store([ref.Leaf(variable)]),
    "link": lambda link: unbuilt_store([ref.Join(0, link, False, 2, 1), ref.Output(2, 1, 5), ref.Leaf(7)]),
    "right link of the last bucket": lambda case: built_store(
        right=ref.Dummy() if case[1] else ref.Leaf(3), halved=case[2], waits=((1, 1),) if case[0] else ()
    ),
    "what names a bucket": two_bucket_store,
    "output number": lambda number: output_store([number], fresh=10),
    "output numbers": lambda numbers: output_store(numbers, fresh=10),
    "output places": lambda places: output_store([5, 6], places),
    "number of an output and a tare": lambda number: built_store(more=[ref.Output(4, 1, number)], tares=[50]),
    "number of an output without inputs": lambda number: held(
        [ref.Leaf(7), ref.Join(0, 0, False, 2, 1), ref.Output(1, 1, number)]
    ),
    "height": chain_store,
    "first entry that waits": lambda node: held(
        [ref.Leaf(1), ref.Leaf(2), ref.Waiting(node, 1), ref.Waiting(0, 6)], inputs=2
    ),
    "inputs of an unbuilt state": lambda inputs: held(
        [ref.Leaf(1), ref.Leaf(2), ref.Waiting(0, 1), ref.Waiting(1, 6)], inputs=inputs
    ),
    "inputs of a built state": lambda inputs: built_store(inputs=inputs),
}

BOUNDARIES = [
    ("maximum of a node", [513, 514]),
    ("left maximum of a bucket", [257, 258]),
    ("maxima that wait", [256, 257]),
    ("entries that wait", [256, 257]),
    ("weight that waits", [0, 3, 4]),
    ("weight that waits unbuilt", [0, 1, ref.MOST_WEIGHT, ref.MOST_WEIGHT + 1]),
    ("tares and built divisor", [(19, 1), (18, 2), (19, 2), (17, 4), (18, 4), (0, 1 << 19), (0, 1 << 20)]),
    ("set divisor of a built state", [1, 2, 4, 8, 3, 0]),
    ("set divisor of an unbuilt state", [1 << 63, 3, 0]),
    ("next fresh number", [3, ref.MOST_VARIABLE, ref.MOST_VARIABLE + 1, ref.MOST_VARIABLE + 2]),
    ("variable total", [9, 10]),
    ("clause total", [7, 8]),
    ("variable of a leaf", [0, -ref.MOST_VARIABLE, ref.MOST_VARIABLE, ref.MOST_VARIABLE + 1]),
    ("link", [2, 3, 4, 5, 7, WORD_32]),
    ("right link of the last bucket", [(w, d, h) for w in (0, 1) for d in (0, 1) for h in (False, True)]),
    (
        "what names a bucket",
        ["nothing else", "output", "left link", "link not halved"]
        + ["another right link", "another left link", "waiting entry", "waiting root"],
    ),
    ("output number", [2, 3, 9, 10]),
    ("output numbers", [(5, 6), (6, 5), (5, 5)]),
    ("output places", [((2, 1), (2, 1)), ((2, 2), (2, 1)), ((2, 3), (2, 1)), ((2, 0), (2, 1)), ((0, 1), (2, 1))]),
    ("number of an output and a tare", [49, 50]),
    ("number of an output without inputs", [0, 1]),
    ("height", [60]),
    ("first entry that waits", [0, 1, 2]),
    ("inputs of an unbuilt state", [0, 1, 2, 3]),
    ("inputs of a built state", [0, 1, 2, 3]),
]
