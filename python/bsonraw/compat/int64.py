"""Ints of 64 bits."""

from .._native import Int64

__all__ = ["Int64"]
