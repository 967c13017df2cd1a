process CHOICES_BY_ELEMENTS = (? [3] boolean C; [3] integer A, B; integer X ! [3] integer Y1, Y2, Y3)
(| C ^= A ^= B ^= X
 | Y1 := if C then A else B
 | Y2 := if C then X else B
 | Y3 := if [true, C[0], not C[0]] then A else 0
 |);
