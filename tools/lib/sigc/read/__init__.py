"""Programs as text: tokens, processes, expressions, calls expanded, edits and layout."""
