"""Errors."""

from . import InvalidBSON
from .._types import BSONError
from .._values import InvalidId
from ._encoding import InvalidDocument, InvalidStringData

__all__ = ["BSONError", "InvalidBSON", "InvalidDocument", "InvalidId", "InvalidStringData"]
