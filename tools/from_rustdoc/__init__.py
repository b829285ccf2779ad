"""from-rustdoc: a translator from rustdoc's output to texts of crates. It is a script, and nothing about it is proved.

It reads rustdoc's JSON of crates and the documents of the standard library, writes the same crates as two texts of
docs/FORMAT.md, an upper and a lower one, has the program answer both, and says what the answers tell of the crates.
What it does, and what it does not promise, is in docs/RUSTDOC.md.

Its packages, in an order in which none imports a later one: `read`, `model`, `write`, `report`, `ask`, `later`. The command uses all.
"""
