"""The program sigc: where it stands, how it is called, and what words it takes."""
