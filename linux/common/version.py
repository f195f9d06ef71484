"""The version of the tools, which is that of `thpsplit` (crates/thp_cli/src/version.rt)."""

VERSION = "0.3.0"
