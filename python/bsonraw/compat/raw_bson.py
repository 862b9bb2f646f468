"""Documents as bytes."""

from . import DEFAULT_CODEC_OPTIONS
from ._classes import RawBSONDocument

DEFAULT_RAW_BSON_OPTIONS = DEFAULT_CODEC_OPTIONS.with_options(document_class=RawBSONDocument)

__all__ = ["DEFAULT_RAW_BSON_OPTIONS", "RawBSONDocument"]
