"""Questions and checks: the part of the crates that may matter, the program's answers to its texts, and what they tell, with reasons."""
