"""The parts of tools/show_journal."""
