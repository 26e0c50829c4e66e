"""What scripts/damage.py stands on: how files are damaged, the tests that they are of, and the form of refusals."""
