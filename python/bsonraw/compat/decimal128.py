"""Decimals."""

from decimal import ROUND_HALF_EVEN, Context

from .._values import Decimal128


def create_decimal128_context() -> Context:
    """The context of decimal in which a number is rounded to one that a Decimal128 holds."""
    return Context(34, ROUND_HALF_EVEN, -6143, 6144, 1, 1, [], [])


__all__ = ["Decimal128", "create_decimal128_context"]
