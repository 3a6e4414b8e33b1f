"""Rows, the cases of tests: read, run by the program `rows` or by the model, and reported."""
