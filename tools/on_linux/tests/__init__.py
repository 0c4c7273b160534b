"""Tests of tools/on_linux."""
