"""Types that all modules share."""
from __future__ import annotations

from typing import Any

import numpy.typing as npt

#: An array of any type of element.
Array = npt.NDArray[Any]
