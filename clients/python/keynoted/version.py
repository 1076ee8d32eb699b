"""The version of this package, which is that of the repository (CHANGELOG.md)."""

__version__ = "0.9.0"
