#!/usr/bin/env python3
"""Document 01, as document 02's asks amend it, over words in plain Python: the seven calls, what each answers, what every lent word holds afterwards.

Written from the documents alone. tests/agree compares it with the definitions of crates/rules, tests/brute with
demand 3; run by itself it checks the worked cases P1 to P9. A refusal is its number, 0 stands for none. Lent lists
are changed in place, as lent slices are; a state is a value.
"""
from collections import defaultdict, namedtuple
from itertools import chain
import sys

sys.setrecursionlimit(100_000)

# ---- Numbers that hold

MOST_INPUTS = 256
MOST_VARIABLE = 1_000_000_000
MOST_WEIGHT = 1_048_575
WORK_WORDS = 16_384
TARES, BUCKETS = 19, 20

State = namedtuple(
    "State", "inputs sum set built records words clauses variables fresh tares tares_used buckets buckets_used"
)
ZERO = State(0, 0, 0, 0, 0, 0, 0, 0, 0, (0,) * TARES, 0, (0,) * BUCKETS, 0)


def lawful_literal(literal):
    return 1 <= abs(literal) <= MOST_VARIABLE


def lawful_weight(weight):
    return 1 <= weight <= MOST_WEIGHT


def power_of_two(number):
    return number > 0 and number & (number - 1) == 0


# ---- Records: eight words each, kind a b c maximum height role index

Leaf = namedtuple("Leaf", "literal maximum height", defaults=(1, 0))
Join = namedtuple("Join", "left right halved maximum height")
Dummy = namedtuple("Dummy", "maximum height", defaults=(0, 0))
Output = namedtuple("Output", "node value number")
Waiting = namedtuple("Waiting", "node weight")
NODES = (Leaf, Join, Dummy)


def literal_word(literal):
    return 2 * abs(literal) + (literal < 0)


def image(record):
    if isinstance(record, Leaf):
        return [1, literal_word(record.literal), 0, 0, 1, 0, 0, 0]
    if isinstance(record, Join):
        return [2, record.left, record.right, int(record.halved), record.maximum, record.height, 0, 0]
    if isinstance(record, Dummy):
        return [3, 0, 0, 0, 0, 0, 0, 0]
    if isinstance(record, Output):
        return [4, record.node, record.value, literal_word(record.number), 0, 0, 0, 0]
    return [5, record.node, record.weight, 0, 0, 0, 0, 0]


def record_of(words):
    """The record whose image these eight words are; None is a kind that is not known."""
    kind, a, b, c, maximum, height = words[:6]
    if kind == 1:
        record = Leaf(-(a // 2) if a % 2 else a // 2)
    elif kind == 2:
        record = Join(a, b, c == 1, maximum, height)
    elif kind == 3:
        record = Dummy()
    elif kind == 4:
        record = Output(a, b, c // 2)
    elif kind == 5:
        record = Waiting(a, b)
    else:
        return None
    return record if image(record) == words else None


def records_of(store, count):
    return [record_of(store[8 * n : 8 * n + 8]) for n in range(count)]


def of_kind(kind, records):
    return [record for record in records if isinstance(record, kind)]


def capacity(store):
    """A place is a 32-bit word, so no store holds more records than that names."""
    return min(len(store) // 8, 2**32)


def lay(words, lent):
    """The words at the front of what was lent, zeros after them."""
    lent[:] = words + [0] * (len(lent) - len(words))


# ---- Refusals: well formed (12)


def well_formed(state, store, clauses):
    if state.records > capacity(store) or state.words > len(clauses):
        return False
    records = records_of(store, state.records)
    return None not in records and all(rule(state, records) for rule in WELL_FORMED)


def totals_fit(state, records):
    return state.clauses <= state.words and state.variables < state.fresh <= MOST_VARIABLE + 1


def inputs_stand_first(state, records):
    return state.inputs <= min(MOST_INPUTS, len(records)) and all(
        isinstance(record, Leaf) for record in records[: state.inputs]
    )


def waiting_entries_stand_last(state, records):
    waits = [isinstance(record, Waiting) for record in records]
    return waits == sorted(waits)


def arrays_are_clear_past_their_counts(state, records):
    return (
        state.tares_used <= TARES
        and state.buckets_used <= BUCKETS
        and not any(state.tares[state.tares_used :])
        and not any(state.buckets[state.buckets_used :])
    )


def leaf_literals_are_lawful(state, records):
    return all(lawful_literal(leaf.literal) for leaf in of_kind(Leaf, records))


def is_node(records, link):
    return link < len(records) and isinstance(records[link], NODES)


def links_name_nodes(state, records):
    named = [record.node for record in of_kind((Output, Waiting), records)]
    named += chain.from_iterable((join.left, join.right) for join in of_kind(Join, records))
    return all(is_node(records, link) for link in named)


def joins_follow_the_rule(state, records):
    return all(
        join == join_of(records, join.left, join.right, join.halved) and join.maximum <= 513
        for join in of_kind(Join, records)
    )


def outputs_are_possible(state, records):
    outputs = of_kind(Output, records)
    return len({(out.node, out.value) for out in outputs}) == len(outputs) and all(
        not isinstance(records[out.node], Leaf) and 1 <= out.value <= records[out.node].maximum for out in outputs
    )


def numbers_are_distinct_and_fresh(state, records):
    numbers = [out.number for out in of_kind(Output, records)]
    taken = numbers + list(state.tares[: state.tares_used])
    last_input = max((abs(leaf.literal) for leaf in records[: state.inputs]), default=-1)
    return (
        numbers == sorted(numbers)
        and len(set(taken)) == len(taken)
        and all(last_input < number < state.fresh for number in taken)
    )


def set_divisor_is_a_power(state, records):
    return power_of_two(state.set)


def waiting_is_lawful(state, records):
    waiting = of_kind(Waiting, records)
    return (
        len(waiting) <= 256
        and sum(records[entry.node].maximum for entry in waiting) <= 256
        and all(lawful_weight(entry.weight) for entry in waiting)
        and (state.built == 0 or all(entry.weight < state.built for entry in waiting))
    )


def unbuilt_is_lawful(state, records):
    if state.built != 0:
        return True
    waiting = of_kind(Waiting, records)
    return (
        state.tares_used == 0
        and state.buckets_used == 0
        and sorted(entry.node for entry in waiting) == list(range(state.inputs))
        and sum(entry.weight for entry in waiting) == state.sum
    )


def built_is_lawful(state, records):
    if state.built == 0:
        return True
    return (
        state.inputs >= 2
        and power_of_two(state.built)
        and state.built >= state.set
        and state.built << state.tares_used <= 1 << 19
        and 1 <= state.buckets_used <= state.tares_used + 1
    )


def used_buckets(state):
    return list(state.buckets[: state.buckets_used])


def buckets_are_linked(state, records):
    buckets = used_buckets(state)
    if not all(bucket < len(records) and isinstance(records[bucket], Join) for bucket in buckets):
        return False
    if not all(records[records[bucket].left].maximum <= 257 for bucket in buckets):
        return False
    if not all(records[above].halved and records[above].right == below for above, below in zip(buckets, buckets[1:])):
        return False
    if not buckets:
        return True
    last = records[buckets[-1]]
    to_dummy = isinstance(records[last.right], Dummy)
    return (to_dummy and last.halved) if of_kind(Waiting, records) else not to_dummy


def only_the_bucket_above_names_a_bucket(state, records):
    buckets = used_buckets(state)
    lawful = set(zip(buckets, buckets[1:]))
    named = set(buckets)
    for place, record in enumerate(records):
        if isinstance(record, Waiting) and record.node in named:
            return False
        if isinstance(record, Join) and record.left in named:
            return False
        if isinstance(record, Join) and record.right in named and (place, record.right) not in lawful:
            return False
    return True


# Each rule may lean on those before it: links are nodes before a linked record is read.
WELL_FORMED = (
    totals_fit,
    inputs_stand_first,
    waiting_entries_stand_last,
    arrays_are_clear_past_their_counts,
    leaf_literals_are_lawful,
    links_name_nodes,
    joins_follow_the_rule,
    outputs_are_possible,
    numbers_are_distinct_and_fresh,
    set_divisor_is_a_power,
    waiting_is_lawful,
    unbuilt_is_lawful,
    built_is_lawful,
    buckets_are_linked,
    only_the_bucket_above_names_a_bucket,
)


# ---- A build with room unlimited: nodes and outputs, what waits, and the clauses of this call


class Build:
    def __init__(self, state, store):
        records = records_of(store, state.records)
        self.inputs, self.sum, self.set, self.built = state.inputs, state.sum, state.set, state.built
        self.records = [record for record in records if not isinstance(record, Waiting)]
        self.waiting = of_kind(Waiting, records)
        self.outputs = {(out.node, out.value): out.number for out in of_kind(Output, records)}
        self.tares = list(state.tares[: state.tares_used])
        self.buckets = used_buckets(state)
        self.fresh = state.fresh
        self.clauses = []

    def add(self, record):
        self.records.append(record)
        return len(self.records) - 1

    def take_numbers(self, count):
        taken = list(range(self.fresh, self.fresh + count))
        self.fresh += count
        return taken

    def output_weight(self):
        return 1 << len(self.tares)

    def root_maximum(self):
        return self.records[self.buckets[0]].maximum

    def largest_weight(self):
        return max((entry.weight for entry in self.waiting), default=0)

    def store_words(self):
        return list(chain.from_iterable(map(image, self.records + self.waiting)))

    def clause_words(self):
        return list(chain.from_iterable(clause + [0] for clause in self.clauses))

    def reached(self, before):
        """The state after this call; `before` is the one that it came with."""
        return before._replace(
            built=self.built,
            records=len(self.records) + len(self.waiting),
            words=before.words + sum(len(clause) + 1 for clause in self.clauses),
            clauses=before.clauses + len(self.clauses),
            variables=before.variables + self.fresh - before.fresh,
            fresh=self.fresh,
            tares=tuple(self.tares + [0] * (TARES - len(self.tares))),
            tares_used=len(self.tares),
            buckets=tuple(self.buckets + [0] * (BUCKETS - len(self.buckets))),
            buckets_used=len(self.buckets),
        )


# ---- Digits and the queue


def digits(number):
    return max(1, number.bit_length())


def power_of(divisor):
    return digits(divisor) - 1


def take_queue(build, divisor):
    """Takes the queue down to the divisor; answers the members that each power's bucket gets."""
    members = defaultdict(list)
    queue = by_weight(build.waiting)
    while queue and queue[0].weight >= divisor:
        weight = queue[0].weight
        merged = merge(build, [entry.node for entry in queue if entry.weight == weight])
        power = power_of(weight)
        members[power].append(merged)
        queue = [entry for entry in queue if entry.weight != weight]
        if weight - (1 << power) > 0:
            queue = by_weight(queue + [Waiting(merged, weight - (1 << power))])
    build.waiting = queue
    return members


def by_weight(waiting):
    return sorted(waiting, key=lambda entry: -entry.weight)


# ---- Buckets and tares


def first_build(build):
    lowest, top = power_of(build.set), power_of(build.largest_weight())
    members = take_queue(build, build.set)
    build.tares = build.take_numbers(top - lowest)
    powers = range(lowest, top + 1)
    build.buckets = stack_buckets(build, [members[power] for power in powers], build.tares + [None])
    build.built = build.set


def stack_buckets(build, members, tares):
    """The buckets over members and tares of rising power, root first."""
    buckets = []
    for nodes, tare in zip(members, tares):
        if not nodes and not buckets:
            continue
        if tare is not None:
            nodes = nodes + [build.add(Leaf(tare))]
        bucket = merge(build, sorted(nodes, key=lambda node: build.records[node].maximum))
        if buckets:
            bucket = build.add(join_of(build.records, bucket, buckets[0], True))
        elif build.waiting:
            bucket = build.add(join_of(build.records, bucket, build.add(Dummy()), True))
        buckets.insert(0, bucket)
    return buckets


# ---- Totalizer


def counts(halved, maximum):
    return maximum // 2 if halved else maximum


def asks(halved, value):
    return 2 * value if halved else value


def join_of(records, left, right, halved):
    left_node, right_node = records[left], records[right]
    maximum = left_node.maximum + counts(halved, right_node.maximum)
    return Join(left, right, halved, maximum, 1 + max(left_node.height, right_node.height))


def merge(build, nodes):
    if len(nodes) == 1:
        return nodes[0]
    left = merge(build, nodes[: len(nodes) // 2])
    right = merge(build, nodes[len(nodes) // 2 :])
    return build.add(join_of(build.records, left, right, False))


def pairs(records, node, value):
    """The a + b = value within the two maxima, a rising."""
    left, right, halved = records[node][:3]
    most_a, most_b = records[left].maximum, counts(halved, records[right].maximum)
    return [(a, value - a) for a in range(max(0, value - most_b), min(value, most_a) + 1)]


def define(build, node, value):
    if value == 0 or isinstance(build.records[node], Leaf) or (node, value) in build.outputs:
        return
    these = pairs(build.records, node, value)
    define_sides(build, node, these)
    [number] = build.take_numbers(1)
    build.outputs[node, value] = number
    build.add(Output(node, value, number))
    write_clauses(build, node, these, number)


def define_sides(build, node, these):
    left, right, halved = build.records[node][:3]
    for a, b in these:
        define(build, left, a)
        define(build, right, asks(halved, b))


def output_literal(build, node, value):
    record = build.records[node]
    return record.literal if isinstance(record, Leaf) else build.outputs[node, value]


def write_clauses(build, node, these, number):
    left, right, halved = build.records[node][:3]
    for a, b in these:
        clause = []
        if a > 0:
            clause.append(-output_literal(build, left, a))
        if b > 0:
            clause.append(-output_literal(build, right, asks(halved, b)))
        build.clauses.append(clause + [number])


# ---- Refinement


def refinement_is_due(build):
    return build.built != 0 and build.largest_weight() >= build.set


def refine(build):
    old_buckets, old_tares = build.buckets, build.tares
    old_outputs = of_kind(Output, build.records)
    former = {bucket: build.records[build.records[bucket].right].maximum for bucket in old_buckets}
    powers = range(power_of(build.set), power_of(build.built))
    members = take_queue(build, build.set)
    fresh = build.take_numbers(len(powers))
    once_left_out = old_tares[: len(old_tares) + 1 - len(old_buckets)]
    new_buckets = stack_buckets(
        build, [members[power] for power in powers] + [[] for _ in once_left_out], fresh + once_left_out
    )
    build.tares, build.buckets, build.built = fresh + old_tares, old_buckets + new_buckets, build.set
    relink(build, old_buckets, new_buckets[0])
    for bucket in reversed(old_buckets):
        for output in old_outputs:
            if output.node == bucket:
                write_further_clauses(build, output, former[bucket])


def relink(build, buckets, below):
    for bucket in reversed(buckets):
        build.records[bucket] = join_of(build.records, build.records[bucket].left, below, True)
        below = bucket


def write_further_clauses(build, output, former_right_maximum):
    these = [(a, b) for a, b in pairs(build.records, output.node, output.value) if b > former_right_maximum // 2]
    define_sides(build, output.node, these)
    write_clauses(build, output.node, these, output.number)


# ---- The calls: start


def start(lits, weights, first, store, clauses):
    """Answers (refusal, state)."""
    refusal = start_refusal(lits, weights, first, store)
    if refusal:
        return refusal, ZERO
    lits, weights = combined(lits, weights)
    records = [Leaf(literal) for literal in lits] + [Waiting(n, weight) for n, weight in enumerate(weights)]
    lay(list(chain.from_iterable(map(image, records))), store)
    lay([], clauses)
    divisor = 1 << power_of(max(weights, default=0))
    return 0, ZERO._replace(inputs=len(lits), sum=sum(weights), set=divisor, records=len(records), fresh=first)


def combined(lits, weights):
    """The combined list (Ask 4): first places kept in order, weights added."""
    added = {}
    for literal, weight in zip(lits, weights):
        added[literal] = added.get(literal, 0) + weight
    return list(added), list(added.values())


def start_refusal(lits, weights, first, store):
    if len(lits) != len(weights) or len(lits) > MOST_INPUTS:
        return 1
    if not all(map(lawful_literal, lits)):
        return 2
    inputs, added = combined(lits, weights)
    if not all(map(lawful_weight, weights)) or any(weight > MOST_WEIGHT for weight in added):
        return 4
    if not 1 <= first <= MOST_VARIABLE or any(abs(literal) >= first for literal in lits):
        return 5
    if capacity(store) < 2 * len(inputs):
        return 7
    return 0


# ---- The calls: precision


def set_precision(state, store, clauses, divisor):
    """Answers (refusal, state)."""
    if not well_formed(state, store, clauses):
        return 12, state
    if divisor != 0 and not power_of_two(divisor):
        return 8, state
    if state.built != 0 and max(divisor, 1) > state.set:
        return 9, state
    return 0, state._replace(set=max(divisor, 1))


def next_precision(state, store, clauses):
    """Answers (refusal, divisor)."""
    if not well_formed(state, store, clauses):
        return 12, 0
    return 0, 1 << power_of(Build(state, store).largest_weight())


def is_max_precision(state, store, clauses):
    """Answers (refusal, whether nothing waits)."""
    if not well_formed(state, store, clauses):
        return 12, False
    return 0, not Build(state, store).waiting


# ---- The calls: encode


def encode_ub_change(state, store, clauses, work, lo, end):
    """Answers (refusal, state); the totals are that state's."""
    if not well_formed(state, store, clauses):
        return 12, state
    if len(work) < WORK_WORDS:
        return 6, state
    if lo >= end or state.inputs < 2:
        return 0, state
    build = Build(state, store)
    if state.built == 0 and state.set > build.largest_weight():
        return 10, state
    encode(build, lo, end)
    reached = build.reached(state)
    if (reached.built, reached.fresh) == (state.built, state.fresh):
        return 0, state
    fits = has_room(reached, store, clauses)
    lay(build.store_words() if fits else store[: 8 * state.records], store)
    lay(clauses[: state.words] + (build.clause_words() if fits else []), clauses)
    lay([], work)
    return (0, reached) if fits else (7, state)


def encode(build, lo, end):
    if build.built == 0:
        first_build(build)
    elif refinement_is_due(build):
        refine(build)
    weight = build.output_weight()
    for value in range(lo // weight + 1, min((end - 1) // weight + 1, build.root_maximum()) + 1):
        define(build, build.buckets[0], value)


def has_room(state, store, clauses):
    return state.records <= capacity(store) and state.words <= len(clauses) and state.fresh <= MOST_VARIABLE + 1


# ---- The calls: enforce and coarse


def enforce_ub(state, store, clauses, scratch, u):
    """Answers (refusal, literals), the literals being the front part of the scratch."""
    if not well_formed(state, store, clauses):
        return 12, []
    refusal, answer = assumptions(state, Build(state, store), u)
    if refusal == 0 and len(scratch) < len(answer):
        return 7, []
    scratch[: len(answer)] = answer
    return refusal, answer


def assumptions(state, build, u):
    if state.sum <= u and state.set == 1:
        return 0, []
    if state.inputs == 0:
        return 0, []
    if state.inputs == 1:
        [entry] = build.waiting
        return 0, [] if entry.weight // state.set <= u else [-build.records[0].literal]
    if state.built == 0:
        return 11, []
    if build.largest_weight() >= state.set:
        return 11, []
    return bound_literals(build, u // (state.built // state.set))


def bound_literals(build, u):
    weight = build.output_weight()
    j = u // weight
    if j >= build.root_maximum():
        return 0, []
    output = build.outputs.get((build.buckets[0], j + 1))
    if output is None:
        return 11, []
    lacking = weight - 1 - u % weight
    tares = [tare for power, tare in enumerate(build.tares) if lacking >> power & 1]
    return 0, [-output] + tares[::-1]


def coarse_ub(state, store, clauses, u):
    """Answers (refusal, bound)."""
    if not well_formed(state, store, clauses):
        return 12, 0
    weight = 1 << state.tares_used
    if state.built == 0 or weight == 1 or u < weight:
        return 0, u
    return 0, (u + 1) // weight * weight - 1


# ---- What clauses and an answer admit


def clauses_in(words):
    """The clauses that used clause words hold, each without its closing 0."""
    clauses, clause = [], []
    for word in words:
        if word:
            clause.append(word)
        else:
            clauses.append(clause)
            clause = []
    return clauses


class Assignments:
    """Every assignment of some variables at once: a set of them is a number with a bit for each."""

    def __init__(self, variables):
        self.variables = sorted(variables)
        self.count = 1 << len(self.variables)
        self.all = (1 << self.count) - 1
        self.true = {}
        for place, variable in enumerate(self.variables):
            low, width = (1 << (1 << place)) - 1, 1 << place
            self.true[variable] = self.all // ((1 << 2 * width) - 1) * (low << width)

    def holds(self, literal, assignment):
        return (self.true[abs(literal)] >> assignment & 1 == 1) == (literal > 0)

    def within(self, lits, weights, bound):
        """The assignments under which the weights of the literals that hold add to at most the bound."""
        loads = [0]
        for variable in self.variables:
            plus, minus = (
                sum(weight for literal, weight in zip(lits, weights) if literal == sign * variable) for sign in (1, -1)
            )
            loads = [load + minus for load in loads] + [load + plus for load in loads]
        return int("".join("01"[load <= bound] for load in reversed(loads)), 2)

    def admitted(self, clauses):
        """The assignments that some assignment of all variables extends so that every clause holds."""
        true, refuted = propagate(clauses, self.true, self.all)
        undecided = self.all & ~refuted
        unmet = 0
        for clause in clauses:
            met = 0
            for literal in clause:
                met |= true.get(literal, 0) if literal > 0 else self.all & ~true.get(-literal, 0)
            unmet |= undecided & ~met
        admitted = undecided & ~unmet
        for n in range(self.count):
            if unmet >> n & 1:
                fixed = [[v if self.true[v] >> n & 1 else -v] for v in self.variables]
                admitted |= satisfiable(clauses + fixed) << n
        return admitted


def propagate(clauses, inputs, everything):
    """Unit propagation for all assignments at once: where each literal is forced, and where that is impossible."""
    true = defaultdict(int)
    for variable, mask in inputs.items():
        true[variable], true[-variable] = mask, everything & ~mask
    refuted = 0 if all(clauses) else everything
    changed = True
    while changed:
        changed = False
        for clause in clauses:
            for literal in clause:
                forced = everything & ~true[literal]
                for other in clause:
                    if other != literal:
                        forced &= true[-other]
                if forced:
                    true[literal] |= forced
                    changed = True
    for literal in list(true):
        refuted |= true[literal] & true[-literal]
    return true, refuted


def satisfiable(clauses):
    """Search, for clauses of any form."""
    units = [clause[0] for clause in clauses if len(clause) == 1]
    while units:
        unit = units[0]
        clauses = [[literal for literal in clause if literal != -unit] for clause in clauses if unit not in clause]
        if [] in clauses:
            return False
        units = [clause[0] for clause in clauses if len(clause) == 1]
    if not clauses:
        return True
    if [] in clauses:
        return False
    literal = clauses[0][0]
    return satisfiable(clauses + [[literal]]) or satisfiable(clauses + [[-literal]])


# ---- Sums on the blackboard


class Room:
    """Lent slices of one caller and the calls over them, each keeping the state that it answers.

    After an accepted start the divisor is set, to 1 unless told otherwise; None leaves the one that start chose (Ask 7).
    """

    def __init__(self, lits, weights, first, records=100, words=1000, divisor=1):
        self.lits, self.weights = combined(lits, weights)
        self.store, self.clauses, self.work = [9] * (8 * records), [9] * words, [9] * WORK_WORDS
        self.refusal, self.state = start(lits, weights, first, self.store, self.clauses)
        if self.refusal == 0 and divisor is not None:
            self.set(divisor)

    def set(self, divisor):
        refusal, self.state = set_precision(self.state, self.store, self.clauses, divisor)
        return refusal

    def encode(self, lo, end):
        refusal, self.state = encode_ub_change(self.state, self.store, self.clauses, self.work, lo, end)
        return refusal

    def enforce(self, u):
        return enforce_ub(self.state, self.store, self.clauses, [9] * 20, u)

    def coarse(self, u):
        return coarse_ub(self.state, self.store, self.clauses, u)

    def written(self):
        return clauses_in(self.clauses[: self.state.words])

    def totals(self):
        return self.state.records, self.state.clauses, self.state.words, self.state.variables

    def root_maximum(self):
        return Build(self.state, self.store).root_maximum()


P3_CLAUSES = [[-2, 5], [-3, 5], [-1, -3, 6], [-3, 7], [-1, 7]]
P3_CLAUSES += [[-6, 8], [-4, -7, 8], [-3, -2, 9], [-5, -8, 10], [-9, 10]]


def p1():
    yield "digits", [digits(n) for n in (0, 1, 8)], [1, 1, 4]


def p2():
    room = Room([1, 2], [1, 4], 3)
    yield "encode", room.encode(0, 1), 0
    yield "W", 1 << room.state.tares_used, 4
    for u, coarse in ((2, 2), (4, 3), (6, 3), (7, 7), (2**64 - 1, 2**64 - 1)):
        yield f"coarse {u}", room.coarse(u), (0, coarse)


def p3():
    room = Room([1, 2, 3], [1, 2, 3], 4, 14, 34)
    yield "encode", room.encode(2, 4), 0
    yield "tares", room.state.tares[: room.state.tares_used], (4,)
    yield "clauses", room.written(), P3_CLAUSES
    yield "totals", room.totals(), (14, 10, 34, 7)
    yield "work", any(room.work), False
    for u, answer in ((3, [-10]), (2, [-10, 4]), (6, [])):
        yield f"P4 u = {u}", room.enforce(u), (0, answer)
    yield "P4 u = 4", room.enforce(4), (11, [])
    for records, words, refusal in ((14, 33, 7), (13, 34, 7), (14, 34, 0)):
        room = Room([1, 2, 3], [1, 2, 3], 4, records, words)
        yield f"{records} records, {words} words", room.encode(2, 4), refusal
    room = Room([1, 2, 3], [1, 2, 3], 4, 14, 33)
    before, old = room.state, list(room.store)
    yield "refused", (room.encode(2, 4), room.state, room.store), (7, before, old)
    yield "refused work", any(room.work), False
    for first, refusal in ((999_999_994, 0), (999_999_995, 7)):
        room = Room([1, 2, 3], [1, 2, 3], first)
        yield f"first fresh {first}", room.encode(2, 4), refusal


def p5():
    room = Room([1, 2], [4, 12], 3)
    yield "encode", room.encode(0, 8), 0
    yield "tares", room.state.tares[: room.state.tares_used], (3, 4, 5)
    [negated] = room.enforce(7)[1]
    yield "u = 6", room.enforce(6), (0, [negated, 3])
    yield "not in the tree", Leaf(3) in records_of(room.store, room.state.records), False


def p6():
    room = Room([1, 2], [9, 15], 3)
    yield "set 8", room.set(8), 0
    yield "encode", room.encode(1, 2), 0
    yield "W and root maximum", (room.state.tares_used, room.root_maximum()), (0, 2)
    refusal, answer = room.enforce(1)
    yield "u = 1", (refusal, len(answer)), (0, 1)
    yield "P7 u = 2", room.enforce(2), (0, [])
    yield "set 1", room.set(1), 0
    yield "refine", room.encode(0, 1), 0
    yield "totals", room.totals(), (27, 22, 74, 16)
    inputs = Assignments([1, 2])
    admitted = inputs.admitted(room.written() + [[literal] for literal in answer])
    yield "admits", admitted, inputs.within(room.lits, room.weights, 15)


def p8():
    room = Room([1, 2], [3, 3], 3)
    yield "set 8", room.set(8), 0
    yield "weights 3, 3", room.encode(0, 1), 10
    room = Room([1, 2], [3, 8], 3)
    yield "set 8", room.set(8), 0
    yield "weights 3, 8", room.encode(0, 1), 0


def p9():
    room = Room([1, 2], [9, 15], 3)
    yield "divisor 3", room.set(3), 8
    yield "set 4", room.set(4), 0
    yield "encode", room.encode(0, 1), 0
    yield "then 8", room.set(8), 9


def most_inputs():
    for count, refusal in ((256, 0), (257, 1)):
        room = Room(list(range(1, count + 1)), [1] * count, count + 1, 600)
        yield f"{count} inputs", room.refusal, refusal
    weights = [1 + n * n * 40_503 % MOST_WEIGHT for n in range(256)]
    room = Room(list(range(1, 257)), weights, 257, 60_000, 2_000_000)
    yield "encode all", room.encode(0, sum(weights)), 0
    yield "well formed", well_formed(room.state, room.store, room.clauses), True
    yield "clause total", len(room.written()), room.state.clauses
    yield "over the sum", room.enforce(sum(weights)), (0, [])
    yield "at the sum less 1", room.enforce(sum(weights) - 1)[0], 0


def twice():
    """Ask 4: the same volume twice."""
    for lits, weights, inputs, added in (
        ([1, 2, 1], [1, 2, 2], [1, 2], [3, 2]),
        ([1, -1, 1], [1, 2, 4], [1, -1], [5, 2]),
        ([3, 3, 3], [1, 1, 1], [3], [3]),
    ):
        room, once = Room(lits, weights, 5, 6), Room(inputs, added, 5, 6)
        yield f"{lits} combined", (room.refusal, room.state, room.store), (0, once.state, once.store)
        yield f"{lits} encoded", (room.encode(0, 2), room.state, room.clauses), (once.encode(0, 2), once.state, once.clauses)
    for lits, weights, records, refusal in (
        ([1] * 256, [1] * 256, 2, 0),
        ([1] * 257, [1] * 257, 2, 1),
        ([1, 1], [1, 1], 1, 7),
        ([1, 1], [MOST_WEIGHT, 1], 2, 4),
        ([1, 1], [MOST_WEIGHT - 1, 1], 2, 0),
        ([1, 1], [0, 1], 2, 4),
        ([1, 1], [2**63, 2**63], 2, 4),
        ([0, 1], [0, 1], 2, 2),
        ([7, 7], [1, MOST_WEIGHT], 2, 4),
        ([7, 7], [1, 1], 2, 5),
    ):
        room = Room(lits, weights, 7, records)
        yield f"{len(lits)} lines of {lits[:2]}, {weights[:2]}", room.refusal, refusal


def heavy():
    """Ask 2: one heavy volume."""
    for weight, divisor, u, answer in (
        (5, 8, 1, []),
        (5, 8, 0, []),
        (5, 4, 0, [-7]),
        (5, 4, 1, []),
        (5, 1, 4, [-7]),
        (5, 1, 5, []),
        (1, 2**63, 0, []),
    ):
        room = Room([7], [weight], 8)
        yield f"set {divisor}", room.set(divisor), 0
        yield f"weight {weight} at {divisor}, u = {u}", room.enforce(u), (0, answer)
    room = Room([7, 7], [3, 2], 8)
    yield "two lines of one literal, set 4", room.set(4), 0
    yield "are one input", (room.enforce(0), room.enforce(1)), ((0, [-7]), (0, []))


def starting():
    """Ask 7: another starting divisor."""
    for lits, weights, divisor in (
        ([1, 2, 3], [1, 2, 3], 2),
        ([1, 2], [8, 15], 8),
        ([1, 1], [3, 3], 4),
        ([1], [MOST_WEIGHT], 1 << 19),
        ([1], [1], 1),
        ([], [], 1),
    ):
        room = Room(lits, weights, 4, divisor=None)
        yield f"{weights} starts at", room.state.set, divisor
        yield "which next_precision names", next_precision(room.state, room.store, room.clauses), (0, divisor)
    room = Room([1, 2], [9, 15], 3, divisor=None)
    yield "encode at it", room.encode(0, 1), 0
    yield "W and built", (room.state.tares_used, room.state.built), (0, 8)
    room = Room([1, 2], [3, 3], 3, divisor=None)
    yield "a divisor above", (room.set(4), room.encode(0, 1)), (0, 10)
    room = Room([7], [2], 8, divisor=None)
    yield "one input asked without a set", room.enforce(1), (0, [])


def self_test():
    passed = failed = 0
    for case in (p1, p2, p3, p5, p6, p8, p9, most_inputs, twice, heavy, starting):
        for name, found, expected in case():
            if found == expected:
                passed += 1
            else:
                failed += 1
                print(f"{case.__name__} {name}: found {found}, expected {expected}")
    print(f"{passed} passed, {failed} failed")
    return failed == 0


if __name__ == "__main__":
    sys.exit(0 if self_test() else 1)
