"""Two readings of document 01."""
