"""Plants mistakes, and sees that something notices each."""
