"""What the tools of this folder share. Python's standard library is all that they need."""
