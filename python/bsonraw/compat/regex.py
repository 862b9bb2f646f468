"""Regular expressions."""

from .._values import Regex

__all__ = ["Regex"]
