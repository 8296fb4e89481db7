"""The extension that cffi makes of rice.h."""
from typing import Any

ffi: Any
lib: Any
