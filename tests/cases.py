"""Tables of test cases."""
import pytest


def cases(*rows):
    """Returns the rows of a table as test cases for parametrize, each named by its first column."""
    return [pytest.param(*row[1:], id=row[0].replace(" ", "_")) for row in rows]
