"""The crates that were read, together: items by key, their names, and what others can name of them."""
