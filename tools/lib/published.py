"""Two networks as they are published, their figures, and the exact chances and best states of their tables, by a sum over all states."""
from fractions import Fraction
from itertools import product

YES = (True, False)


def part(yes, value):
    """The probability of yes or no, by that of yes."""
    return Fraction(yes) if value else 1 - Fraction(yes)


def clinic_weight(state):
    """The chest clinic of Lauritzen and Spiegelhalter (1988), whose `either` is sure."""
    a, t, s, l, b, e, x, d = state
    if e != (t or l):
        return Fraction(0)
    breath = {(True, True): "0.9", (True, False): "0.7", (False, True): "0.8", (False, False): "0.1"}[e, b]
    return (part("0.01", a) * part("0.05" if a else "0.01", t) * part("0.5", s) * part("0.1" if s else "0.01", l) * part("0.6" if s else "0.3", b)
            * part("0.98" if e else "0.05", x) * part(breath, d))


def burglary_weight(state):
    """The burglar alarm of Russell and Norvig (Artificial Intelligence: A Modern Approach), after Pearl."""
    b, e, a, j, m = state
    alarm = {(True, True): "0.95", (True, False): "0.94", (False, True): "0.29", (False, False): "0.001"}[b, e]
    return part("0.001", b) * part("0.002", e) * part(alarm, a) * part("0.9" if a else "0.05", j) * part("0.7" if a else "0.01", m)


class Network:
    """A published network: the market file of its tables, its questions in order, each answered by yes or no, and the weights of its states."""

    def __init__(self, file, names, weight, figures):
        self.file, self.names, self.figures = file, names, figures
        self.states = [dict(zip(names, state)) for state in product(YES, repeat=len(names))]
        self.weights = [weight(tuple(state.values())) for state in self.states]

    def meeting(self, pairs):
        """The states with these values, with their weights."""
        return [(state, weight) for state, weight in zip(self.states, self.weights) if all(state[name] == value for name, value in pairs)]

    def chance(self, wanted, given):
        return sum(weight for _, weight in self.meeting([*given, *wanted])) / sum(weight for _, weight in self.meeting(given))

    def best(self, given):
        """The likeliest state with these values, and its chance; the first of equals."""
        found = self.meeting(given)
        state, weight = max(found, key=lambda it: it[1])
        return state, weight / sum(weight for _, weight in found)


def pairs_of(text):
    return [(name, value == "yes") for name, value in (word.split("=") for word in text.split())]


# The published figures, to as many digits as they are given, by what is asked and what is known.
CLINIC = Network("examples/clinic.toml", ["asia", "tuberculosis", "smoking", "lung", "bronchitis", "either", "xray", "dyspnoea"], clinic_weight, {
    ("tuberculosis=yes", ""): "0.0104",
    ("lung=yes", ""): "0.055",
    ("bronchitis=yes", ""): "0.45",
    ("either=yes", ""): "0.0648",
    ("xray=yes", ""): "0.1103",
    ("dyspnoea=yes", ""): "0.4360",
    ("tuberculosis=yes", "asia=yes dyspnoea=yes"): "0.0878",
    ("lung=yes", "asia=yes dyspnoea=yes"): "0.0995",
    ("bronchitis=yes", "asia=yes dyspnoea=yes"): "0.8114",
})
BURGLARY = Network("examples/burglary.toml", ["burglary", "earthquake", "alarm", "john", "mary"], burglary_weight, {
    ("burglary=yes", "john=yes mary=yes"): "0.284",
    ("burglary=no", "john=yes mary=yes"): "0.716",
    ("john=yes mary=yes alarm=yes burglary=no earthquake=no", ""): "0.000628",
})
NETWORKS = (CLINIC, BURGLARY)
