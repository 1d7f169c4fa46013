"""A refusal, from docs/rules/cell.md: one form for every part. A call that is refused answers one."""
from typing import NamedTuple


class Refusal(NamedTuple):
    number: int
    part: str
    place: int = 0

    def __str__(self):
        """As the programs that run cases print it."""
        return f"refused {self.number} {self.part} {self.place}"


def refused(answer):
    return isinstance(answer, Refusal)
