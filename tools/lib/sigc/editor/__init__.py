"""What the language server says of a program, and of all programs of a folder."""
