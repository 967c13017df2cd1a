"""Runs of which every signal is known at each instant."""
