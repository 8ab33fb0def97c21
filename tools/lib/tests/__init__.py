"""Tests of gdb_bridge that need no gdb, no compiler and no hubris.

From the top of the repository: python3 -m unittest discover -s tools/lib/tests -t tools/lib"""
