"""Batches for programs that are held against the model."""

from books import two_books
from generator import generate


def with_other_byte(number, batch):
    """Every seventh batch, damaged in one byte; the others as they are."""
    if number % 7 or not batch:
        return batch
    at = number * 2654435761 % len(batch)
    return batch[:at] + bytes([batch[at] ^ 1 << number % 8]) + batch[at + 1 :]


def drawn(seed, number):
    """A batch as `compare` draws it; every seventh is damaged in one byte."""
    return with_other_byte(number, generate(seed, number)[1])


def drawn_for_choices(seed, number):
    """Where stronger rules first is compared: every other batch has two rule books."""
    return with_other_byte(number, two_books(seed, number)) if number % 2 else drawn(seed, number)
