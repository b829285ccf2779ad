"""A registry of crates, surveyed: each documented, read, checked and judged, and answers about it compared with rustc. These are scripts: nothing of it is proved."""
