"""Tests of the tools that are one file, and of what all tools have alike."""
