"""A run that is made one instant at a time, over sigc itself."""
