"""What is read: rustdoc's JSON, the documents of std, and what cargo says, each as the intermediate form of `terms`."""
