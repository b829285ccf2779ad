"""Makers of texts: those of the check `hostile` that work the search hard (by_lot), and the families of benches/families (families)."""
