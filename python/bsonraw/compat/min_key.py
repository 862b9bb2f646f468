"""The least value."""

from .._values import MinKey

__all__ = ["MinKey"]
