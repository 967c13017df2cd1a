"""Why sigc refuses the clocks of a program, and mends that were tried."""
