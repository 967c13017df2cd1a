"""The commands of tools/, a module each: `start` runs one, and ends with its status."""
