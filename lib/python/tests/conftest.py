"""A test that does not end is ended, with what each thread is doing."""
import faulthandler
import os

import pytest

PATIENCE = 120  # seconds; a test takes a few at most


@pytest.fixture(scope="session")
def errors(request):
    """Standard error as it is outside of the tests, whose own is collected."""
    with request.config.pluginmanager.getplugin("capturemanager").global_and_fixture_disabled():
        copy = os.dup(2)
    with os.fdopen(copy, "w") as file:
        yield file


@pytest.fixture(autouse=True)
def ends(errors):
    faulthandler.dump_traceback_later(PATIENCE, exit=True, file=errors)
    yield
    faulthandler.cancel_dump_traceback_later()
