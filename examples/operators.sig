% One definition for each operator that changes when a signal is present. %
process OPERATORS = (? integer A; boolean B, C, T ! integer D, W, M, H; event K)
(| D := A $ 1 init 0
 | W := A when B
 | M := A default 9 when C
 | H := A cell T init 7
 | K := ^A ^- T
 |);
