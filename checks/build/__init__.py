"""Builds the programs, and says how far a build is and how long it takes."""
