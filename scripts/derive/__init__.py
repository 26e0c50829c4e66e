"""A second reading of this project's formats, written from docs/ alone: see docs/cases.md, "Derived again"."""
