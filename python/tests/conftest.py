"""What the tests share: the package in place, and the papers' nights."""

import sys
from pathlib import Path

import pytest

HERE = Path(__file__).resolve().parent
PACKAGE = HERE.parent
sys.path[:0] = [str(PACKAGE), str(HERE)]


try:
    import hypothesis
    hypothesis.settings.register_profile("nothing is kept", database=None)
    hypothesis.settings.load_profile("nothing is kept")
except ImportError:
    pass


@pytest.fixture
def nights():
    """The folder of the papers' nights."""
    return PACKAGE / "wigandoy" / "nights"
