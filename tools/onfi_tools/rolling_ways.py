"""The ways of the simulator of channels in rolling use, each with its title."""

# Those that need no library.
GREEDY = {
    "fifo": "first in first out",
    "round-robin": "round robin, eight",
    "commands-first": "commands first, eight",
    "mqsim": "MQSim's order, eight",
    "rfirst:8": "reads first, eight",
    "rfirst:all": "reads first, all",
}
# Those that search.
PLANS = {
    "plan": "plan in order",
    "plan-early": "plan in order, early",
}
WITHOUT_SEARCH = {
    "rule": "rule, in order",
    "steady": "phase by phase",
}
WAYS = {**GREEDY, **PLANS, **WITHOUT_SEARCH}


def title_of(way: str) -> str:
    """That of a way; one's own has its name."""
    return WAYS.get(way, way)


# The best plain way, with which each is compared.
BASE = "rfirst:all"
# Those of one's own load, where none are named.
PLAIN = ["fifo", BASE, "steady"]
# The ways by which sectors are measured beside pages.
WAYS_OF_SECTORS = [BASE, "steady", "plan"]
