"""The independent model of the server, and its journals (README.md)."""
