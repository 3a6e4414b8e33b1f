"""What the tests of tools have in common."""
import pytest

from tools.start_runs import Tree


@pytest.fixture
def tree(tmp_path):
    return Tree(tmp_path)
