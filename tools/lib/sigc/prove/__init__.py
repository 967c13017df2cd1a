"""Properties of programs, and how they are decided."""
