"""Why a call was turned back."""

from .refusals import TABLE


class Refusal(ValueError):
    """A call that the archive refused: it wrote nothing and left the line as it was.

    `number` is that of the first refusal that applies, `name` its name, `reason` when it applies.
    """

    def __init__(self, number: int) -> None:
        self.number = number
        self.name, self.reason = TABLE.get(number, ("unknown", "a number that no call answers"))
        super().__init__(number)

    def __str__(self) -> str:
        return f"refusal {self.number}, {self.name}: {self.reason}"
