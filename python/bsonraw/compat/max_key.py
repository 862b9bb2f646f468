"""The greatest value."""

from .._values import MaxKey

__all__ = ["MaxKey"]
