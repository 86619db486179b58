"""Programs compared on the same files."""
