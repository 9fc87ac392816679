# The compiled module, which cffi makes of noise.h.
from typing import Any

ffi: Any
lib: Any
