"""The parts of tools/between."""
