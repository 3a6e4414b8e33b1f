"""Random calls and orders to servers that take orders, beside the model in single steps (`random_orders.py`). By hand
there are so many runs that they have 10,000 orders."""
from collections import Counter

import pytest

from helpers.random_orders import KINDS, run
from helpers.server_helpers import SERVERS

STEPS, RUNS, MANY, ORDERS = 200, 6, 180, 10_000

pytestmark = pytest.mark.parametrize("command", SERVERS)


def counted(command, seeds):
    orders = sum((run(command, seed, STEPS) for seed in seeds), Counter())
    assert set(orders) == set(KINDS)
    return orders.total()


@pytest.mark.quick
def test_runs(command, add_up):
    add_up(counted(command, range(RUNS)), "orders")


@pytest.mark.by_hand
def test_many_runs(command, tell):
    found = counted(command, range(RUNS, RUNS + MANY))
    assert found >= ORDERS
    tell(f"{found} orders, and no difference")
