"""JavaScript."""

from .._values import Code

__all__ = ["Code"]
