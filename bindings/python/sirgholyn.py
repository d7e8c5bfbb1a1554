r"""Verified reencoding of formulas for SAT solvers.

`solve` gives a plan for a formula in DIMACS CNF:

>>> solve("p cnf 2 2\n1 2 0\n-1 0\n")
[-1, 2]

`sizes`, `reencode`, `walk_back`, `carry_forward` and `read_back` are the calls of the proved library, with buffers of
their own:

>>> formula = b"p cnf 3 2\n1 2 0\n-1 3 0\n"
>>> new = reencode(formula)
>>> new.formula
b'p cnf 3 0\n'
>>> plan(walk_back(formula, new.log, b"s SATISFIABLE\nv 0\n"))
[-1, 2, -3]

Texts are `bytes`; a `str` stands for its bytes in UTF-8. In a formula, a literal that is repeated in its clause is
kept once, and a clause that holds a literal and its negation is left out:

>>> read_back(b"p cnf 3 3\n3 1 3 0\n2 1 -2 0\n-1 0\n").clauses
[[3, 1], [-1]]

A text that is not accepted raises `Refused`:

>>> reencode(b"p cnf 1 1\n2 0\n")
Traceback (most recent call last):
sirgholyn.Refused: refused 4: a literal's variable is above V; the formula's writer can mend it

The library is `libsirgholyn.so`, which `host/shared-library` builds. The environment variable SIRGHOLYN_LIB may name
another folder that holds it, and SIRGHOLYN_COMMAND another program for `solve`.
"""

import ctypes
import functools
import math
import operator
import os
import re
import subprocess
import sys
import threading
from concurrent.futures import Future
from typing import Any, Callable, Dict, List, NamedTuple, Optional, Sequence, Tuple, Union

__all__ = [
    "Choice",
    "ReadBack",
    "Reencoding",
    "Refused",
    "Sizes",
    "SolverFailed",
    "Undecided",
    "carry_forward",
    "plan",
    "read_back",
    "reencode",
    "sizes",
    "solve",
    "walk_back",
]

Text = Union[bytes, str]

_ROOT = os.path.dirname(os.path.dirname(os.path.dirname(os.path.realpath(__file__))))

# ---- refusals

_MEANINGS = {
    1: "the formula has no header line `p cnf V C`",
    2: "the header's V or C is too large",
    3: "a word of the formula is not a number",
    4: "a literal's variable is above V",
    7: "the formula's text ends inside a clause",
    8: "the formula does not have exactly C clauses",
    9: "the formula has too many literals",
    11: "the workspace is too short",
    12: "the log's buffer is too short",
    13: "the new formula's buffer is too short",
    14: "the answer's buffer is too short",
    15: "the step is outside 1 to 100",
    16: "with this step the highest variable would pass 70000",
    17: "the table of choices is too short",
    31: "a kept line of the log is not in the layout of a DRAT line, repeats or opposes a literal, "
    "or has a variable above 70000",
    32: "the log deletes a clause that does not stand",
    33: "the walked-back assignment fails the formula",
    34: "the log has fewer lines than are to be kept",
    41: "the answer or plan is not in the layout `s SATISFIABLE`, then `v ` lines that end in 0",
    42: "the answer names a variable above those of formula and log, or the plan one above V",
    43: "the answer or plan names a variable twice",
    44: "a clause that stands is false under the answer",
    45: "the plan fails the formula",
    46: "a clause that stands is false under the plan carried forward, so the log is not the formula's own",
}


_MENDERS = {
    (*range(1, 5), *range(7, 10)): "the formula's writer",
    range(11, 18): "the caller",
    (*range(31, 35), 46): "the log's writer",
    range(41, 44): "the solver or planner",
    (44,): "the solver",
    (45,): "the planner",
}


def _mender(number: int) -> str:
    return next((mender for numbers, mender in _MENDERS.items() if number in numbers), "nobody listed")


class Refused(ValueError):
    """A text, an answer or a buffer that is not accepted.

    `number` is one of the listed numbers, `meaning` says what it means and `mender` who can mend it.
    """

    def __init__(self, number: int, said: Optional[str] = None) -> None:
        super().__init__(number, said)
        self.number = number
        self.meaning = _MEANINGS.get(number, "a number that is not listed")
        self.mender = _mender(number)
        self._said = said

    def __str__(self) -> str:
        return self._said or f"refused {self.number}: {self.meaning}; {self.mender} can mend it"


# ---- the library


class _Choice(ctypes.Structure):
    _fields_ = [("first", ctypes.c_uint32), ("length", ctypes.c_uint32), ("clauses", ctypes.c_uint32)]


_TEXT = [ctypes.c_char_p, ctypes.c_size_t]
_BYTES = [ctypes.POINTER(ctypes.c_uint8), ctypes.c_size_t]
_ENTRIES = [ctypes.POINTER(ctypes.c_int32), ctypes.c_size_t]
_COUNTS = [ctypes.POINTER(ctypes.c_uint64), ctypes.c_size_t]
_TABLE = [ctypes.POINTER(_Choice), ctypes.c_size_t]
_ASKED = _TEXT + 3 * [ctypes.c_uint32] + _ENTRIES
_CARRYING = _TEXT + _TEXT + [ctypes.c_size_t] + _TEXT + _ENTRIES + _BYTES + _COUNTS

# The arguments of host/include/sirgholyn.h; each call returns a uint32_t.
_DECLARED: Dict[str, List[Any]] = {
    "sirgholyn_reencode": _ASKED + _BYTES + _BYTES + _TABLE + _COUNTS,
    "sirgholyn_sizes": _ASKED + _COUNTS,
    "sirgholyn_walk_back": _CARRYING,
    "sirgholyn_carry_forward": _CARRYING,
    "sirgholyn_read_back": _TEXT + _ENTRIES + _COUNTS,
}


@functools.lru_cache(maxsize=None)
def _library() -> ctypes.CDLL:
    folder = os.environ.get("SIRGHOLYN_LIB") or os.path.join(_ROOT, "target", "staticlib")
    path = os.path.join(folder, "libsirgholyn.so")
    if not os.path.exists(path):
        raise FileNotFoundError(f"there is no {path}: `host/shared-library` in {_ROOT} builds it")
    library = ctypes.CDLL(path)
    for name, arguments in _DECLARED.items():
        function = getattr(library, name)
        function.argtypes = arguments
        function.restype = ctypes.c_uint32
    return library


# The library holds its tables on the stack, up to 1.5 MB, and does not ask whether they fit.
_STACK_BYTES = 32 << 20

# Python has one stack size for all threads that are started: it is changed for the start of ours alone.
_stack_size_lock = threading.Lock()


def _new_lock() -> None:
    """A process that is forked while another thread has the lock gets one of its own."""
    global _stack_size_lock
    _stack_size_lock = threading.Lock()


os.register_at_fork(after_in_child=_new_lock)


def _on_large_stack(call: Callable[[], int]) -> int:
    """Runs a call on a new thread whose stack is large enough for it."""
    outcome: "Future[int]" = Future()

    def run() -> None:
        try:
            outcome.set_result(call())
        except BaseException as error:
            outcome.set_exception(error)

    thread = threading.Thread(target=run)
    with _stack_size_lock:
        before = threading.stack_size(_STACK_BYTES)
        try:
            thread.start()
        finally:
            threading.stack_size(before)
    thread.join()
    return outcome.result()


def _call(name: str, counts: int, *given: Any) -> List[int]:
    """The counts of the call of this name. A text or a buffer is passed with its length."""
    tally = _zeros(ctypes.c_uint64, counts)
    passed: List[Any] = []
    for each in (*given, tally):
        passed += [each] if isinstance(each, int) else [each, len(each)]
    function: Callable[..., int] = getattr(_library(), name)
    number = _on_large_stack(lambda: function(*passed))
    if number != 0:
        raise Refused(number)
    return list(tally)


# ---- buffers

# No accepted formula has more variables, and no log a higher one.
_MOST_VARIABLES = 8_000
_MOST_LOG_VARIABLES = 70_000


def _lent(element: Any, exact: Optional[int], enough: int) -> Any:
    """Elements for a call: exactly so many where that is set, else as many as are enough."""
    return _zeros(element, enough if exact is None else _count(exact))


def _zeros(element: Any, count: int) -> Any:
    try:
        return (element * count)()
    except (MemoryError, OverflowError):
        size = count * ctypes.sizeof(element)
        raise MemoryError(f"no memory for a buffer of {size} bytes") from None


# ---- arguments


def _bytes(text: Text) -> bytes:
    if isinstance(text, str):
        return text.encode()
    if not isinstance(text, bytes):
        raise TypeError(f"a text wants bytes or str, not {type(text).__name__}")
    return text


def _count(number: int) -> int:
    number = operator.index(number)
    if number < 0:
        raise ValueError(f"wanted a count, found {number}")
    return number


def _form_number(form: str) -> int:
    if form not in ("counter", "order"):
        raise ValueError(f"form wants 'counter' or 'order', not {form!r}")
    return int(form == "order")


def _step_number(step: int) -> int:
    """The step as it passes: one too large for 32 bits stays one that the library refuses."""
    return min(_count(step), 2**32 - 1)


def _reading_workspace(text: bytes, literals: int, clauses: int, variables: int) -> int:
    """At least as many entries as the rule for reading asks for, under these limits."""
    return 40 * min(_words(text), literals) + 4 * clauses + 12 * variables + 8_192


def _words(text: bytes) -> int:
    """At least as many as the text has words."""
    return 1 + sum(text.count(separator) for separator in (b" ", b"\t", b"\r", b"\n"))


# ---- the calls


class Choice(NamedTuple):
    """What is written down of a choice. Its new variables are first .. first + length - 2."""

    first: int  # its first new variable
    length: int  # its literals
    clauses: int  # clauses of the formula that were resolved into it; 1 where it is one itself


class Reencoding(NamedTuple):
    """The two texts of a reencoding, its counts, and a record for each choice in the order taken."""

    log: bytes
    formula: bytes
    choices: int
    highest: int  # the highest variable used
    clauses: int  # those of the new formula
    lines: int  # those of the log
    table: List[Choice]


class Sizes(NamedTuple):
    """The counts of a reencoding, and the bytes of its two texts."""

    choices: int
    highest: int
    clauses: int
    lines: int
    log_bytes: int
    formula_bytes: int


def sizes(
    text: Text,
    *,
    form: str = "counter",
    align: bool = False,
    step: int = 1,
    work: Optional[int] = None,
) -> Sizes:
    r"""What `reencode` with these arguments will count; no text is written.

    Its `log_room` wants `log_bytes`, its `formula_room` `formula_bytes` and its `table_room` `choices`: so much is
    accepted, and one less refused.

    Raises Refused with 15, 1 to 4, 7 to 9, 16; with 11 only where `work` is set.

    >>> text = b"p cnf 8 3\n1 2 3 0\n-3 4 5 0\n-5 6 7 8 0\n"
    >>> sizes(text, step=10)
    Sizes(choices=1, highest=15, clauses=20, lines=27, log_bytes=266, formula_bytes=192)
    >>> len(reencode(text, step=10).log)
    266
    """
    return _counted("sirgholyn_sizes", *_asked(text, form, align, step, work))


def _asked(text: Text, form: str, align: bool, step: int, work: Optional[int]) -> Tuple[Any, ...]:
    """What both calls for a reencoding are given first: text, settings and workspace."""
    text = _bytes(text)
    settings = _form_number(form), int(bool(align)), _step_number(step)
    workspace = _lent(ctypes.c_int32, work, _reading_workspace(text, 60_000, 20_000, _MOST_VARIABLES))
    return (text, *settings, workspace)


def _counted(name: str, *given: Any) -> Sizes:
    return Sizes(*_call(name, len(Sizes._fields), *given))


def reencode(
    text: Text,
    *,
    form: str = "counter",
    align: bool = False,
    step: int = 1,
    work: Optional[int] = None,
    log_room: Optional[int] = None,
    formula_room: Optional[int] = None,
    table_room: Optional[int] = None,
) -> Reencoding:
    r"""The log and the new formula of a formula in DIMACS CNF, and the table of its choices.

    `form` is the form of the choices, 'counter' or 'order'; with `align` the literals of linked choices are put into
    the same order. A choice's first new variable is 1 more than a multiple of `step`, 1 to 100; the numbers that are
    skipped stand in no clause. `work` (32-bit entries), `log_room` and `formula_room` (bytes) and `table_room`
    (records) set the size of a buffer exactly. Texts and table have the room that `sizes` tells where none is set.

    Raises Refused with 15, 1 to 4, 7 to 9, 16; with 11, 12, 13 and 17 only where the size of that buffer is set.

    >>> new = reencode(b"p cnf 6 6\n1 2 3 4 5 0\n-1 6 0\n-2 6 0\n-3 6 0\n-4 -6 0\n-5 -6 0\n", form="order")
    >>> new.choices, new.highest, new.clauses, new.lines
    (1, 10, 8, 40)
    >>> new.formula.splitlines()[0]
    b'p cnf 10 8'
    >>> reencode(b"p cnf 8 3\n1 2 3 0\n-3 4 5 0\n-5 6 7 8 0\n", step=10).table
    [Choice(first=11, length=6, clauses=3)]
    """
    asked = _asked(text, form, align, step, work)
    for room in (log_room, formula_room, table_room):
        # one that is no count is told before the text is looked at
        _count(0 if room is None else room)
    needed = _counted("sirgholyn_sizes", *asked)
    log = _lent(ctypes.c_uint8, log_room, needed.log_bytes)
    new_formula = _lent(ctypes.c_uint8, formula_room, needed.formula_bytes)
    table = _lent(_Choice, table_room, needed.choices)
    done = _counted("sirgholyn_reencode", *asked, log, new_formula, table)
    return Reencoding(
        ctypes.string_at(log, done.log_bytes),
        ctypes.string_at(new_formula, done.formula_bytes),
        done.choices,
        done.highest,
        done.clauses,
        done.lines,
        [Choice(each.first, each.length, each.clauses) for each in table[: done.choices]],
    )


def walk_back(
    formula: Text,
    log: Text,
    answer: Text,
    *,
    kept: Optional[int] = None,
    work: Optional[int] = None,
    room: Optional[int] = None,
) -> bytes:
    r"""A solver's answer for the new formula, carried back to the formula: a line `v`, literals of 1..V, `0`, LF.

    `answer` is what the solver printed. `kept` is how many lines of the log are kept, all where it is None. `work`
    (32-bit entries) and `room` (bytes for the line) set the size of a buffer exactly.

    Raises Refused with 1 to 4, 7 to 9, 31 to 34, 41 to 44; with 11 and 14 only where the size of that buffer is set.

    >>> log = b"2 3 0\nd 1 2 0\nd -1 3 0\nd 2 3 0\n"
    >>> walk_back(b"p cnf 3 2\n1 2 0\n-1 3 0\n", log, b"s SATISFIABLE\nv 0\n")
    b'v -1 2 -3 0\n'
    """
    return _carry("sirgholyn_walk_back", _MOST_VARIABLES, formula, log, answer, kept, work, room)


def carry_forward(
    formula: Text,
    log: Text,
    plan: Text,
    *,
    kept: Optional[int] = None,
    work: Optional[int] = None,
    room: Optional[int] = None,
) -> bytes:
    r"""A plan for the formula, carried forward over its own log: a line `v`, literals of 1..X, `0`, LF.

    `plan` is laid out as a solver's answer: `s SATISFIABLE`, then what `walk_back` gives. X is the highest variable of
    formula and kept lines, and the line satisfies the clauses that stand after them: those of the new formula, where
    all lines are kept. `kept`, `work` and `room` are those of `walk_back`.

    Raises Refused with 1 to 4, 7 to 9, 31, 32, 34, 41 to 43, 45, 46; with 11 and 14 only where the size of that buffer
    is set.

    >>> formula = b"p cnf 5 1\n1 2 3 4 5 0\n"
    >>> carry_forward(formula, reencode(formula).log, b"s SATISFIABLE\nv 2 4 0\n")
    b'v -1 2 -3 -4 -5 -6 7 8 9 0\n'
    """
    return _carry("sirgholyn_carry_forward", _MOST_LOG_VARIABLES, formula, log, plan, kept, work, room)


def _carry(
    name: str,
    most_variables: int,
    formula: Text,
    log: Text,
    assignment: Text,
    kept: Optional[int],
    work: Optional[int],
    room: Optional[int],
) -> bytes:
    """An assignment carried over the kept lines by the call of this name, to a line for so many variables at most."""
    formula, log, assignment = _bytes(formula), _bytes(log), _bytes(assignment)
    # no log has more lines than Python's sizes count, and a larger number would not pass as it is
    lines = _lines(log) if kept is None else min(_count(kept), sys.maxsize)
    workspace = _lent(ctypes.c_int32, work, 4 * (_words(formula) + _words(log)) + 4 * _MOST_LOG_VARIABLES + 64)
    line = _lent(ctypes.c_uint8, room, _longest_line(most_variables))
    [length] = _call(name, 1, formula, log, lines, assignment, workspace, line)
    return ctypes.string_at(line, length)


def _longest_line(variables: int) -> int:
    """At least as many bytes as the line for so many variables has: each may have a sign, and has a blank."""
    return (1 + len(str(variables)) + 1) * variables + len(b"v 0\n")


def _lines(log: bytes) -> int:
    """All lines of a log, a last one without LF included."""
    return log.count(b"\n") + (not log.endswith(b"\n") and log != b"")


def plan(line: Text) -> List[int]:
    r"""The literals of a line as `walk_back` and `carry_forward` give it.

    >>> plan(b"v -1 2 -3 0\n")
    [-1, 2, -3]
    """
    words = _bytes(line).split()
    if words[:1] != [b"v"] or words[-1:] != [b"0"]:
        raise ValueError("a plan is a line `v`, literals, `0`")
    return [int(word) for word in words[1:-1]]


class ReadBack(NamedTuple):
    """The clauses that are kept of a new formula, and its counts."""

    clauses: List[List[int]]
    variables: int  # V of the header
    literals: int  # those of all clauses


def read_back(text: Text, *, work: Optional[int] = None) -> ReadBack:
    r"""The clauses that are kept of a new formula. `work` sets the 32-bit entries of the store exactly.

    Raises Refused with 1 to 4, 7 to 9; with 11 only where `work` is set.

    >>> read_back(b"p cnf 3 2\n1 -2 0\n0\n")
    ReadBack(clauses=[[1, -2], []], variables=3, literals=2)
    """
    text = _bytes(text)
    store = _lent(ctypes.c_int32, work, _reading_workspace(text, 1_000_000, 300_000, 70_000))
    variables, clauses, literals = _call("sirgholyn_read_back", 3, text, store)
    return ReadBack(_split(store[: clauses + literals], clauses), variables, literals)


def _split(entries: List[int], count: int) -> List[List[int]]:
    """So many clauses, each of which stands as its length and its literals."""
    clauses = []
    at = 0
    for _ in range(count):
        after = at + 1 + entries[at]
        clauses.append(entries[at + 1 : after])
        at = after
    return clauses


# ---- solving


class SolverFailed(RuntimeError):
    """The solver cannot be run, or did not end as a solver does."""


class Undecided(RuntimeError):
    """The solver gave up, or the time was over."""


def solve(
    text: Text,
    *,
    form: str = "order",
    align: bool = True,
    step: int = 1,
    solver: Optional[str] = None,
    proof: Union[None, str, "os.PathLike[str]"] = None,
    check: bool = True,
    timeout: Optional[float] = None,
) -> Optional[List[int]]:
    r"""A plan for a formula in DIMACS CNF, as the literals of 1..V; None where there is no plan.

    Runs the command `sirgholyn solve`, which reencodes, runs the solver, carries its answer back and tests it; the
    plan is tested here once more. `form`, `align` and `step` are those of `reencode`. `solver` is another solver than
    cadical, with its own options. That there is no plan is believed where the solver's proof holds; without `check` it
    is the solver's word. `proof` names a file that gets the DRAT proof of the formula. The solver gets `timeout`
    seconds, rounded up.

    Raises Refused, SolverFailed, Undecided, MemoryError, and RuntimeError for any other failure of the command.

    >>> solve(b"p cnf 1 2\n1 0\n-1 0\n") is None
    True
    """
    text = _bytes(text)
    _form_number(form)
    words = [_command(), "solve", "-", "--form", form, "--align" if align else "--no-align"]
    words += ["--step", str(_step_number(step))]
    if solver is not None:
        words += [f"--solver={solver}"]
    if proof is not None:
        words += ["--proof", os.path.abspath(os.fspath(proof))]
        words += [] if check else ["--no-check"]
    elif check:
        words += ["--proof", os.devnull]
    if timeout is not None:
        words += ["--timeout", str(math.ceil(timeout))]
    status, printed, said = _run(words, text)
    lines = printed.split(b"\n")
    if status == 20 and b"s UNSATISFIABLE" in lines:
        return None
    if status != 10 or b"s SATISFIABLE" not in lines:
        raise _failure(status, said)
    literals = plan(next((line for line in lines if line.startswith(b"v ")), b"v 0"))
    if not _satisfies(text, literals):
        raise RuntimeError("what the command printed is no plan for the formula")
    return literals


def _command() -> str:
    return os.environ.get("SIRGHOLYN_COMMAND") or os.path.join(_ROOT, "sirgholyn")


def _run(words: Sequence[str], text: bytes) -> Tuple[int, bytes, str]:
    """The exit status, and what is printed on standard output and on standard error."""
    pipe = subprocess.PIPE
    with subprocess.Popen(words, stdin=pipe, stdout=pipe, stderr=pipe) as child:
        try:
            printed, said = child.communicate(text)
        except BaseException:
            # asked to end, and not killed, so that it can end its solver
            child.terminate()
            raise
    return child.returncode, printed, said.decode(errors="replace").strip()


def _failure(status: int, said: str) -> Exception:
    """What is raised for a status that is no answer; the number of a refusal is the status."""
    said = re.sub("^sirgholyn: ", "", said, flags=re.MULTILINE)
    if status in _MEANINGS and re.search(rf"\brefused {status}\b", said):
        return Refused(status, said)
    said = said or f"the command ended with the status {status}"
    if status == 69:
        return SolverFailed(said)
    if status == 71:
        return MemoryError(said)
    if status == 75:
        return Undecided(said)
    return RuntimeError(said)


def _satisfies(text: bytes, literals: List[int]) -> bool:
    """Whether each of 1..V is named once and every clause has a true literal, of a formula that was accepted."""
    lines = text.split(b"\n")
    header = next(index for index, line in enumerate(lines) if line.startswith(b"p"))
    variables = int(lines[header].split()[2])
    if sorted(abs(literal) for literal in literals) != list(range(1, variables + 1)):
        return False
    chosen = set(literals)
    is_true = False
    for word in b"\n".join(lines[header + 1 :]).split():
        literal = int(word)
        if literal == 0 and not is_true:
            return False
        is_true = literal != 0 and (is_true or literal in chosen)
    return True
