"""The values of tables and queries, and refusals of their bytes (docs/FORMATS.md, Values and Refusals)."""

TERMS = range(1, 1 << 20)
TRUSTS = range(-1000, 1001)
VARIABLES = range(16)

# A known trust, or a bound, is written plus so many thousandths.
TRUST_ZERO = 1000


class Refused(Exception):
    """Bytes that the check refuses: the number and the place as it gives them, and the reason in words."""

    def __init__(self, number, place, reason):
        super().__init__(f"refused {number} at {place}: {reason}")
        self.number = number
        self.place = place
