"""Lossless compression of arrays of whole numbers by the adaptive Rice coder of CCSDS 121.0-B-3.

>>> import numpy
>>> samples = numpy.array([5] * 15 + [4], "u1")
>>> code = encode(samples, block=8, interval=2)
>>> code.hex()
'0058f2'
>>> bool((decode(code, 16, "u1", block=8, interval=2) == samples).all())
True

The code stores neither the options nor the number of samples: keep both beside it. An array's type gives the bits of a sample, their
sign, width and order of bytes; the options (`Options`) say the rest. Nothing is altered: what doesn't come back as it was is refused.

The interpreter's lock is released while samples are coded. Meanwhile no other thread may change the arrays of the call.
"""
from ._coding import decode, decode_all, encode
from ._decoder import Decoder, Place, offsets
from ._encoder import Encoder
from ._errors import Report, RiceError, Status
from ._options import Options, options_for
from ._rice import ffi as _ffi, lib as _lib

__version__: str = _ffi.string(_lib.RICE_VERSION_TEXT).decode()

__all__ = ["Decoder", "Encoder", "Options", "Place", "Report", "RiceError", "Status", "__version__", "decode", "decode_all", "encode",
           "offsets", "options_for"]
