"""Tests of from-rustdoc on crates that are kept as JSON beside them, with a sample of std's documents. `tools/check rustdoc_cases` runs them."""
