"""The version of this package, which is that of CHANGELOG.md."""

__version__ = "0.2.0"
