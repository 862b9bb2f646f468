"""Time zones of a fixed distance from UTC."""

from datetime import timedelta, timezone
from typing import Union

utc = timezone.utc


def FixedOffset(offset: Union[float, timedelta], name: str) -> timezone:  # noqa: N802: a class in MongoDB's package
    """The zone of this many minutes from UTC."""
    return timezone(offset if isinstance(offset, timedelta) else timedelta(minutes=offset), name)


__all__ = ["FixedOffset", "utc"]
