"""What the commands of the package have in common at a terminal: Ctrl-C, the three streams, and how far a long question is."""
