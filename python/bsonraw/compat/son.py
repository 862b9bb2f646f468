"""Dicts in order."""

from ._classes import SON

__all__ = ["SON"]
