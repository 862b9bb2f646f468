"""Ids."""

from .._values import InvalidId, ObjectId

__all__ = ["InvalidId", "ObjectId"]
