"""Servers of the program that is tested."""
from functools import partial
from pathlib import Path

import pytest

pytest.register_assert_rewrite("serving")
import serving


@pytest.fixture
def serve(program: Path) -> serving.Serve:
    """Starts a server at a port that the system chooses."""
    return partial(serving.Server, program)
