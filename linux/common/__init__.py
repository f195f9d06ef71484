"""Modules that the tools of the running kernel share: see README in this folder."""
