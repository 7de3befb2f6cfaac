"""Fixtures of the tests of the tree."""
import pytest
import trees


def pytest_collection_modifyitems(items):
    """Runs the tests that prove crates first, as they need the longest time."""
    items.sort(key=lambda item: item.get_closest_marker("proves") is None)


@pytest.fixture
def small_tree(work):
    """The small tree, without faults."""
    trees.write(work, trees.SMALL)
    return work


@pytest.fixture
def copied_tree(work):
    """A copy of this tree, without proofs and kept results of checks."""
    trees.copy(work, *trees.PARTS)
    return work
