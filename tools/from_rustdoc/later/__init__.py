"""Two versions of a crate: what a release changes, and whether that breaks crates that use it."""
