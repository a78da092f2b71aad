"""The version of this package, which packaging/write_version of the repository keeps."""

__version__ = "0.1.0"
