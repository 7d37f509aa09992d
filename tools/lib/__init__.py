"""What the tools beside the program have in common. Nothing of it is proved, and the program does not use it."""
