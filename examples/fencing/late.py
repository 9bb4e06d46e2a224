"""What the recipes have in common: the error of a writer that is late."""


class Late(Exception):
    """The store has a token above this one: another owner came since. Nothing was changed."""
