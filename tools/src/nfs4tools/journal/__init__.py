"""Journals: their entries, their file, the audit, and entries as text."""
