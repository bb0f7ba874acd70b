"""Rooms of the tests on real files."""
import pytest

from real_files import Room


@pytest.fixture
def room(program, tmp_path) -> Room:
    return Room(program, tmp_path)


@pytest.fixture
def disk(room: Room) -> Room:
    """A room with a new disk, `d`."""
    room.ends("format --disk d")
    return room
