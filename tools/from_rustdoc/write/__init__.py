"""The crates as two texts of docs/FORMAT.md, and the checker that reads such texts back."""
