"""What is said to people and to scripts: messages, and what became of each item."""
