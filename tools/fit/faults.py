"""What ends the tool early: input that it refuses, and answers of the program that can't be right."""

from perfscript import Fault


class BadInput(Fault):
    """What the user gave is refused: exit status 2, as where the program can't be used."""


class ProgramFault(Exception):
    """The program answered what it should not: exit status 3."""


def at_place(reason: str, option: str, text: str, character: int) -> BadInput:
    """A refusal that shows where in the text of an option the word stands, counted from 1."""
    return BadInput(f"{option}, character {character}: {reason}\n    {text}\n    {' ' * (character - 1)}^")
