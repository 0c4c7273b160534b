"""What ends a tool early."""


class Fault(Exception):
    """What the user gave can't be used, or the program does not answer: one line that says what to do."""
