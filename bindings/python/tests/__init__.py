"""Tests of the package, by unittest: `python3 -m unittest` in the folder above."""
