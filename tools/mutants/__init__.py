"""Would a wrong rule be noticed?  `make mutants` alters the definitions one point at a time.

The code is proved equal to the definitions in crates/*/specs, so a wrong definition with matching
code would be proved as gladly.  What must refuse it are the computed examples and the stated
theorems.  This package reads the definitions, turns them into Python, and judges each altered
definition by itself: see `judge`.  It runs no prover, and needs nothing but Python.
"""
