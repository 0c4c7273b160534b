"""Tools that keep the repository."""
