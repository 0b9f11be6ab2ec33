"""The parts of tools/erase: the reader, what is known, and what is left of a file."""
