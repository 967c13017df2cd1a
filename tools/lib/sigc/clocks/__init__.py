"""Clocks, clusters and paces as sigc tells them, and in words."""
