"""Programs as C, a step for each cluster, with carriers between them."""
