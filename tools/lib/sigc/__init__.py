"""The scripts beside sigc: what the commands of tools/ do, and what they share."""
