"""The parts of tools/build_unproved, tools/build_proved and tools/release: programs that are built from a copy of the
sources, in which each says what it is."""
