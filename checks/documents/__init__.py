"""Keeps the documents and what they speak of the same."""
