"""Times of years that datetime doesn't have."""

from .._values import DatetimeMS

__all__ = ["DatetimeMS"]
