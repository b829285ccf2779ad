"""The checks that `tools/check` runs, a module for each, over what they share: `common`, `makers`, `answers`, `terms`."""
