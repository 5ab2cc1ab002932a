"""What the contracts of the crates rest on: tools/believed prints it."""
