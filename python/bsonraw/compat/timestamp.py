"""Times of replication."""

from .._values import Timestamp

__all__ = ["Timestamp"]
