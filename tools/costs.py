"""What a first proof of crates costs: how many crates it takes, and how many processor minutes.

tools/measured_minutes.txt has a line `NAME MINUTES` for each crate, for `rest`, which is what a run of ./test spent
beside its crates, and for `part_1` to `part_4`, the parts of ./test, all in processor minutes; and for `whole`, the
minutes by the clock of ./test from nothing, and `cores`, on how many cores. `tools/processor_minutes --note LOG` writes the file. A crate that has no
line there counts by its lines of code.
"""
import functools

from repository import TOP, below, files_of, graph, longest_chain

MINUTES = f"{TOP}/tools/measured_minutes.txt"
# The crates that have the owned form of a kind, each with those that have its other forms.
HALVES = {"scc_owned": ("scc_shared",), "scc_owned_set": ("scc_shared_set",), "scc_owned_cache": ("scc_shared_cache",)}


@functools.lru_cache(maxsize=None)
def measured():
    """The minutes of each line of the file."""
    with open(MINUTES, encoding="utf-8") as file:
        pairs = [line.split() for line in file if line.strip() and not line.startswith("#")]
    return {name: float(minutes) for name, minutes in pairs}


@functools.lru_cache(maxsize=None)
def lines_of(crate):
    """How many lines a proof of a crate reads."""
    count = 0
    for path in files_of(crate):
        with open(f"{TOP}/crates/{crate}/{path}", "rb") as file:
            count += file.read().count(b"\n")
    return count


@functools.lru_cache(maxsize=None)
def minutes_of_line():
    """What a line of the measured crates took on average."""
    known = [crate for crate in graph() if crate in measured()]
    return sum(measured()[crate] for crate in known) / max(1, sum(map(lines_of, known)))


def minutes_of_crate(crate):
    """The processor minutes of a crate."""
    return measured()[crate] if crate in measured() else lines_of(crate) * minutes_of_line()


def minutes_of(crates):
    """The processor minutes of these crates together, rounded, and at least one."""
    return max(1, round(sum(map(minutes_of_crate, crates))))


def chain_to(crate, cost=minutes_of_crate):
    """The last crate and the minutes of the longest chain of crates that wait for one another, below a crate or, if it is
    None, of all."""
    crates = graph()
    wanted = below(crate) if crate else crates
    chain, minutes = longest_chain({name: crates[name] for name in crates if name in wanted}, {name: cost(name) for name in wanted})
    return chain[-1], max(1, round(minutes))


def minutes_of_kind(crate):
    """The processor minutes of a crate and, if it has the owned form of a kind, of the crates of the other forms."""
    return minutes_of_crate(crate) + sum(minutes_of_crate(other) for other in HALVES.get(crate, ()) if other in graph())


def costs_of_kinds(crate):
    """What a first proof of a crate would cost if all forms of a kind were one crate: processor minutes, and how many of
    these one after the other."""
    return max(1, round(sum(map(minutes_of_kind, below(crate))))), chain_to(crate, minutes_of_kind)[1]


def costs(crate):
    """How many crates a program that lists this one alone proves first, in how many processor minutes, and how many of
    these one after the other."""
    crates = below(crate)
    return len(crates), minutes_of(crates), chain_to(crate)[1]
