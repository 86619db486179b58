"""The documents held against the sources."""
