"""The parts of examples/import/check."""
