"""Images, and what one instant of an image does."""
