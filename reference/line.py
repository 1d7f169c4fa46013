"""Plans and lines, from docs/rules/line.md alone. A plan is a list of the numbers of its fates."""
from carriage import LOST, arrivals
from refusal import Refusal

MOST_FATES = 64


class Draft:
    FATE_NUMBER, PLAN_FULL = Refusal(9, "plan"), Refusal(10, "plan")

    def __init__(self):
        self.numbers = []

    def add(self, number):
        if number > LOST:
            return self.FATE_NUMBER
        if len(self.numbers) == MOST_FATES:
            return self.PLAN_FULL
        self.numbers.append(number)
        return None

    def amend(self, place, number):
        if place >= len(self.numbers):
            return Refusal(11, "plan", place)
        if number > LOST:
            return self.FATE_NUMBER
        self.numbers[place] = number
        return None

    def start(self):
        """The fates of the started plan; the draft is gone."""
        numbers, self.numbers = self.numbers, None
        return numbers


class Line:
    """A plan over a carriage below. What is used up of the plan is taken off its front."""

    def __init__(self, below, plan):
        self.below, self.plan = below, list(plan)

    def put(self, cell):
        if self.room() == 0:
            return self.below.put(cell)
        for passed in arrivals(self.plan.pop(0) if self.plan else 0, cell):
            self.below.put(passed)
        return None

    def look(self):
        return self.below.look()

    def drop_first(self):
        return self.below.drop_first()

    def room(self):
        return self.below.room()

    def waiting(self):
        return self.below.waiting()

    def fates(self):
        return fates_ahead(self.plan, self.below.fates())


def fates_ahead(own, below):
    """The fates ahead of a line, step by step as in the table of the rule."""
    if not own:
        return below
    if own[0] == LOST:
        return [LOST] + fates_ahead(own[1:], below)
    if not below:
        return [own[0]] + fates_ahead(own[1:], [])
    met = LOST if below[0] == LOST else own[0] ^ below[0]
    return [met] + fates_ahead(own[1:], below[1:])
