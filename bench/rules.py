"""Document 01's code, setting and records, as tools/looking has them."""

import sys
from pathlib import Path

sys.path.append(str(Path(__file__).resolve().parent.parent / "tools"))

from looking.causes import ROOM  # noqa: F401
from looking.code import accepted_taus, derive, patch_of, refusal_of  # noqa: F401
from looking.records import join  # noqa: F401
