"""What is wrong where sigc refuses a text, and what mends it."""
