"""References."""

from ._classes import DBRef

__all__ = ["DBRef"]
