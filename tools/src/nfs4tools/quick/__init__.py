"""The parts of tools/quick_tests."""
