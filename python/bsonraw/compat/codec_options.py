"""What is read as what."""

from ._options import (
    DEFAULT_CODEC_OPTIONS,
    CodecOptions,
    DatetimeConversion,
    TypeCodec,
    TypeDecoder,
    TypeEncoder,
    TypeRegistry,
)

__all__ = ["CodecOptions", "DEFAULT_CODEC_OPTIONS", "DatetimeConversion", "TypeCodec", "TypeDecoder", "TypeEncoder", "TypeRegistry"]
