"""Rows on their way: to servers on TCP (tools/send_rows), and to the program that serves them (tools/rows)."""
