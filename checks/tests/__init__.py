"""Tests the programs as they were built, from outside."""
