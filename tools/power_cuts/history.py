"""Whether a heap is that of a closed set of the sections that sections.c has told, exactly.

The counter of each thread says how many of its sections the heap has. Of each monitor they have to be the first that took it: a section depends
on the one that had the monitor before. Each value is then the last one that they stored, or what the heap had when it was opened.
"""
import dataclasses


@dataclasses.dataclass
class Life:
    """One opening of the heap: its values then, and the steps of each thread's sections, in order."""

    number: str
    base: list
    steps: dict = dataclasses.field(default_factory=dict)


def lives_of(lines):
    """Reads the lines. A section whose life wasn't told belongs to none."""
    lives = {}
    for line in lines:
        kind, number, *words = line.split()
        if kind == "#life":
            lives[number] = Life(number, list(map(int, words)))
        elif kind == "#section" and number in lives:
            lives[number].steps.setdefault(int(words[0]), {})[int(words[1])] = words[2:]
    return list(lives.values())


def kept_steps(life, heap, threads):
    """Yields the steps of each section that the heap has, as lists, and raises KeyError for one that wasn't told."""
    for thread in range(1, threads + 1):
        for count in range(life.base[thread] + 1, heap[thread] + 1):
            yield life.steps.get(thread, {})[count]


def stores_of(steps, taken):
    """Yields the stores of a section, each with its monitor's order, and notes which orders each monitor was taken in."""
    order = {}
    for place, step in enumerate(steps):
        if ":" in step:
            monitor, number = step.split(":")
            order[monitor] = int(number)
            taken.setdefault(monitor, set()).add(order[monitor])
        else:
            monitor, _, store = step.partition(".")
            value, _, number = store.partition("=")
            yield order[monitor], place, int(value), int(number)


def why_not(life, heap, threads):
    """Why the heap isn't one of this life, or ''."""
    if any(heap[thread] < life.base[thread] for thread in range(1, threads + 1)):
        return "it is older"
    taken = {}
    try:
        stores = [it for steps in kept_steps(life, heap, threads) for it in stores_of(steps, taken)]
    except KeyError as count:
        return f"section {count} wasn't told"
    for monitor, orders in taken.items():
        if len(orders) != max(orders):
            lacks = min(set(range(1, max(orders))) - orders)
            return f"monitor {monitor} was taken {max(orders)} times, and the section of time {lacks} isn't there"
    values = list(life.base)
    for _, _, value, number in sorted(stores):
        values[value] = number
    wrong = [f"value {i} is {found} and not {value}" for i, (found, value) in enumerate(zip(heap, values)) if found != value]
    return ", ".join(wrong[:5])


def what_is_wrong(lives, heap, threads):
    """Nothing where the heap is one of any life. Else what is wrong with it in the last ones."""
    reasons = []
    for life in reversed(lives):
        why = why_not(life, heap, threads)
        if not why:
            return ""
        reasons.append(f"in life {life.number} {why}")
    return f"no closed set of sections: {'; '.join(reasons[:3]) or 'no life was told'}"
