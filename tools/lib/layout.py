"""The feed's sizes and kinds, and what is said of a list or a feed that breaks them."""

VERSION = 1
MOST_BYTES = 65_536
MOST_ROWS = 256
MOST_BODY = 65_535
MOST_OWN = 32
MOST_TRANSACTIONS = 16
MOST_INPUTS = 8
MOST_OUTPUTS = 8
MOST_NUMBER = 2**64 - 1
MOST_INDEX = 2**16 - 1
MOST_ADDRESS = 2**32 - 1
MOST_AMOUNT = 45_000_000_000_000_000

KINDS = {'own': 1, 'block': 2, 'pay': 3, 'back': 4}
WORDS = {kind: word for word, kind in KINDS.items()}
MOST_SHOWN = 100


class Refused(Exception):
    """What stands in the way, for the person who called."""


def shown(text):
    """A text as a message quotes it: its beginning alone where it is long."""
    return f"'{text}'" if len(text) <= MOST_SHOWN else f"'{text[:MOST_SHOWN]}..'"
