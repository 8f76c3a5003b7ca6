"""The tests of the program as it is built: `python3 -m tests` (tests/__main__.py)."""
