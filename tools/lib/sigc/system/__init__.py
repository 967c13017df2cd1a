"""Systems of programs: their text, how it is checked and drawn, and how a system is run and written in C."""
