"""Runs what the documents show, and compares what comes of it, or writes it into them."""
