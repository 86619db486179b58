"""A resolved script for people: its text, each name marked by what it means."""
