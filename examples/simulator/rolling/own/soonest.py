"""A scheduler to start from: of the steps that may start soonest that of the oldest request, with all that can join it."""

from typing import Sequence

from onfi import Scheduler, Step


class Soonest(Scheduler):
    def choose(self, steps: Sequence[Step]) -> Step:
        return min(steps, key=lambda step: (step.start, step.want.id))
