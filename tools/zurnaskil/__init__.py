"""What the scripts of tools/, tests/, examples/ and bench/ have in common. The first lines of each module say what it is for."""
