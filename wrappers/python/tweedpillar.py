"""The calls of libtweedpillar over ctypes. `./build-library` makes the shared object; TWEEDPILLAR_LIBRARY names another.

The functions are those of include/tweedpillar.h: slices are ctypes arrays (`words`, `signed`, `weights` make them). Build
holds a state with its slices. Run by itself it starts, encodes and enforces document 01's worked case P3.
"""
import ctypes as c
import os
from pathlib import Path
import sys

WORK_WORDS, ANSWER_WORDS, RECORD_WORDS = 16_384, 20, 8


class State(c.Structure):
    _fields_ = [("inputs", c.c_uint32), ("sum", c.c_uint64), ("set", c.c_uint64), ("built", c.c_uint64)]
    _fields_ += [("records", c.c_size_t), ("words", c.c_size_t), ("clauses", c.c_size_t)]
    _fields_ += [("variables", c.c_uint32), ("fresh", c.c_uint32), ("tares", c.c_uint32 * 19), ("tares_used", c.c_uint32)]
    _fields_ += [("buckets", c.c_uint32 * 20), ("buckets_used", c.c_uint32)]


class Answered(c.Structure):
    _fields_ = [("refusal", c.c_uint32), ("state", State)]


class Encoded(c.Structure):
    _fields_ = [("refusal", c.c_uint32), ("variables", c.c_uint32), ("clauses", c.c_size_t), ("state", State)]


class Value(c.Structure):
    _fields_ = [("refusal", c.c_uint32), ("value", c.c_uint64)]


class Refused(Exception):
    """A refusal; `number` is its number."""

    def __init__(self, call, number):
        super().__init__(f"{call}: refusal {number}")
        self.number = number


def words(given):
    """A slice of unsigned words: a length (zeros) or a list."""
    return (c.c_uint32 * (given if isinstance(given, int) else len(given)))(*([] if isinstance(given, int) else given))


def signed(given):
    """A slice of signed words: a length (zeros) or a list."""
    return (c.c_int32 * (given if isinstance(given, int) else len(given)))(*([] if isinstance(given, int) else given))


def weights(given):
    return (c.c_uint64 * len(given))(*given)


def load(path=None):
    path = path or os.environ.get("TWEEDPILLAR_LIBRARY")
    path = path or Path(__file__).resolve().parents[2] / "target" / "library" / "libtweedpillar.so"
    if not Path(path).is_file():
        sys.exit(f"tweedpillar: {path} is not there; ./build-library makes it")
    return c.CDLL(str(path))


_S32, _SI32, _S64, _LEN, _U64 = (c.POINTER(c.c_uint32), c.POINTER(c.c_int32), c.POINTER(c.c_uint64), c.c_size_t, c.c_uint64)
_HELD = [State, _S32, _LEN, _SI32, _LEN]
_SIGNATURES = {
    "start": (Answered, [_SI32, _LEN, _S64, _LEN, c.c_uint32, _S32, _LEN, _SI32, _LEN]),
    "set_precision": (Answered, _HELD + [_U64]),
    "next_precision": (Value, _HELD),
    "is_max_precision": (Value, _HELD),
    "encode_ub_change": (Encoded, _HELD + [_S32, _LEN, _U64, _U64]),
    "enforce_ub": (c.c_size_t, _HELD + [_SI32, _LEN, _U64, _S32]),
    "coarse_ub": (Value, _HELD + [_U64]),
}


class Library:
    """The seven calls; an argument that is a ctypes array is passed with its length."""

    def __init__(self, path=None):
        library = load(path)
        for name, (result, arguments) in _SIGNATURES.items():
            call = getattr(library, f"tweedpillar_{name}")
            call.restype, call.argtypes = result, arguments
            setattr(self, name, self._with_lengths(call))

    @staticmethod
    def _with_lengths(call):
        def called(*args):
            flat = []
            for arg in args:
                flat += [arg, len(arg)] if isinstance(arg, c.Array) else [arg]
            return call(*flat)

        return called


class Build:
    """One build with its slices. A call that refuses raises Refused and leaves the build as it was.

    The divisor is set after start, to 1 unless told otherwise; None leaves the one that start chooses, the top power of the
    largest weight.
    """

    def __init__(self, lits, loads, first, records, clause_words, library=None, divisor=1):
        self.library = library or Library()
        self.store, self.clauses, self.work = words(8 * records), signed(clause_words), words(WORK_WORDS)
        answer = self.library.start(signed(lits), weights(loads), first, self.store, self.clauses)
        self.state = self._accepted("start", answer).state
        if divisor is not None:
            self.set_precision(divisor)

    @staticmethod
    def _accepted(call, answer):
        if answer.refusal:
            raise Refused(call, answer.refusal)
        return answer

    def _held(self):
        return self.state, self.store, self.clauses

    def set_precision(self, divisor):
        self.state = self._accepted("set_precision", self.library.set_precision(*self._held(), divisor)).state

    def next_precision(self):
        return self._accepted("next_precision", self.library.next_precision(*self._held())).value

    def is_max_precision(self):
        return self._accepted("is_max_precision", self.library.is_max_precision(*self._held())).value == 1

    def encode(self, lo, end):
        answer = self.library.encode_ub_change(*self._held(), self.work, lo, end)
        self.state = self._accepted("encode_ub_change", answer).state

    def enforce(self, u):
        scratch, refusal = signed(ANSWER_WORDS), c.c_uint32()
        count = self.library.enforce_ub(*self._held(), scratch, u, c.byref(refusal))
        if refusal.value:
            raise Refused("enforce_ub", refusal.value)
        return list(scratch[:count])

    def coarse(self, u):
        return self._accepted("coarse_ub", self.library.coarse_ub(*self._held(), u)).value

    def written(self):
        """The clauses in the buffer, each a list of literals."""
        found, clause = [], []
        for word in self.clauses[: self.state.words]:
            if word:
                clause.append(word)
            else:
                found.append(clause)
                clause = []
        return found


if __name__ == "__main__":
    build = Build([1, 2, 3], [1, 2, 3], 4, records=14, clause_words=34)
    build.encode(2, 4)
    print(f"{build.state.clauses} clauses, {build.state.variables} fresh variables:", build.written())
    for bound in (2, 3, 6):
        print(f"at most {bound}: assume", build.enforce(bound))
