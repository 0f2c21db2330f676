"""What docs/PROFILE.md says of plans, as a plain reading of it."""
from typing import NamedTuple

from .manual import is_applied
from .toxics import SoFar, begun, delays_nothing, drops_all, end

# How the numbers of two neighbours of one word are joined.
JOINS = {"slow": sum, "limit": min, "cutoff": min}


class Operation(NamedTuple):
    """An operation as its line: a word, the number that joining changes, the texts behind it, and when it works.

    The number of a mute is its ending, an instant with a word.
    """

    word: str
    number: object
    text: str = ""
    window: str = ""

    def line(self):
        number = ending_text(*self.number) if self.word == "mute" else self.number
        return " ".join(filter(None, (self.word, str(number), self.text, self.window))) + "\n"


def ending_text(instant, ending):
    return ending if instant is None else f"{ending} {instant}"


def window(values):
    return " ".join(f"{key} {values[key]}" for key in ("until", "from") if values[key])


def delay(values, place):
    latency, jitter = values["latency"], values["jitter"]
    if jitter:
        return Operation("delay", 0, f"jitter {latency} {jitter} lane {place}", window(values))
    return Operation("delay", latency, "", window(values))


def slicing(values, place):
    text = f"{values['size_variation']} {values['delay']} lane {place}"
    return Operation("slicing", values["average_size"], text, window(values))


def reset(values, _place):
    due = 1000 * values["timeout"]
    return Operation("halt", f"after {values['after']}", f"reset {due}") if values["after"] else Operation("cutoff", due)


def halt(values, _place):
    """A timeout that begins later."""
    at = [f"at {1000 * values['from']}"] if values["from"] else []
    after = [f"after {values['after']}"] if values["after"] else []
    return Operation("halt", " ".join(at + after), ending_text(*begun(values, 0)))


OPERATIONS = {
    "latency": delay,
    "bandwidth": lambda values, _: Operation("pace", values["rate"], "", window(values)),
    "slow_close": lambda values, _: Operation("slow", values["delay"]),
    "timeout": halt,
    "reset_peer": reset,
    "slicer": slicing,
    "limit_data": lambda values, _: Operation("limit", values["bytes"]),
}


def joined(first, second):
    """The operation that two neighbours become, or None."""
    if first.word != second.word:
        return None
    if first.word in JOINS:
        return Operation(first.word, JOINS[first.word]((first.number, second.number)))
    always = not first.window and not second.window
    if first.word == "delay" and always and not (first.text and second.text):
        return Operation("delay", first.number + second.number, first.text + second.text)
    return None


def added(plan, kind, values, place):
    """A plan with the operation of one more toxic."""
    if drops_all(kind, values):
        return [Operation("mute", begun(values, 0))]
    if plan and plan[-1].word == "mute":
        return [Operation("mute", end(kind, values, *plan[-1].number, SoFar()))]
    if delays_nothing(kind, values):
        return plan
    more = OPERATIONS[kind](values, place)
    one = joined(plan[-1], more) if plan else None
    return [*plan, more] if one is None else [*plan[:-1], one]


def plan_text(words, chain):
    """What `plan` prints."""
    plan = []
    for place, (kind, values, toxicity) in enumerate(chain):
        if is_applied(words, place, toxicity):
            plan = added(plan, kind, values, place)
    return "".join(operation.line() for operation in plan) or "pass\n"
