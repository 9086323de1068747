"""The package's version: that of the file VERSION of the repository."""

VERSION = "0.2.0"
