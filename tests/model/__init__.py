"""What the rules say, in Python (docs/RULES.md): the tree, the gain commands, WAVE files. Whole numbers and fractions only."""
