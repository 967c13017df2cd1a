% An element that is a bare constant comes with the others, also where elements are merged one by one. %
process MIXED = (? integer X; boolean B ! [2] integer Y, Z)
(| X ^= B
 | Y := [X when B, 1] default [X, X + 1]
 | Z := [X, 1] $ 1 init 0
 |);
