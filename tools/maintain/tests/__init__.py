"""Tests of the tools that keep the repository."""
