"""What the tests share: clients and crowds of them, cases, and what judges the outcomes of many at once."""
