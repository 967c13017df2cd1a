constant integer N = 2;
process P = (? integer X, S; boolean B, C; [2] integer A ! integer Y, Z, U, V, W; boolean Q, R; event E1, E2; [2] integer G, H; integer K, L)
  (| X ^= B ^= C ^= A ^= S
   | Y := 1 + if C then X else -X $ 1 init 4
   | Z := X cell B init 1 when C default 7 * X - 3 / 2 modulo 2
   | U := - X $ 1 init -3 + 2
   | Q := not X = 2 and B or C xor B
   | R := not not B and not (C or B) /= C
   | E1 := ^X ^- (when B) ^* (when C) ^+ ^(X when C)
   | E2 := when B default (when C) 
   | V := X - 1 - 2 * 3 / 4 modulo 5 + 6
   | W := if B then X else if C then 2 else 3 default X
   | G := (S : X) next (A when B default A)
   | H := (S : X) next (1 : X + 1) next A
   | K := X count 3 when C
   | L := X after B from C
   |);
