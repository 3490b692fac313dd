"""Tests of the tools. tests/tools runs the modules test_*.py of this folder; common.py has what they share, and is imported first."""
