"""Fixed files with their answers."""
