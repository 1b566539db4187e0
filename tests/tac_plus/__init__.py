"""Configurations of tac_plus that are drawn, what they mean, and whether an import of one says that.
`tests/imports.py` and `bench/import` have them."""
