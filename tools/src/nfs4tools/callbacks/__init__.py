"""Calls that a server makes to its clients, and a listener for them."""
