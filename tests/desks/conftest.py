"""What the tests of the scripts of desks/ need."""
import pytest

from nights import Night
from quiet import QuietRoom


@pytest.fixture(autouse=True)
def needs(program):
    """None of these tests can do without the program."""


@pytest.fixture
def new_room(request):
    """A room in which no office has run yet, of the kind that the module names as its ROOM."""
    with getattr(request.module, "ROOM", QuietRoom)() as room:
        yield room


@pytest.fixture
def room(new_room):
    """A room whose office runs."""
    new_room.start()
    return new_room


@pytest.fixture
def night():
    with Night() as night:
        yield night
