"""The package's version, which the library's has to fit."""

VERSION = "0.7.3"
