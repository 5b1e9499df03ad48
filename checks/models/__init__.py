"""The rules as machines in Python, which the tests compare the programs with."""
