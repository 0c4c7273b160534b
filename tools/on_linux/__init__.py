"""Compares the program's report of a script with what a running Linux kernel does with software events."""
