type T = enum (a, b, c);
process P = (? integer X; T S; boolean B ! T Y init #c; integer Z init 4, Q; boolean F, G; [2] integer W init 3; T U; [2] T V; integer R)
 (| X ^= S ^= B
  | case S in {#a, #b}: (| Y := S $ | Z := X $ 2 |) else (| Y := (S $) | Z := X $ 1 init 9 |) end
  | Q := X cell B | F := B $ 3 | G := (B $) or F
  | W := [X, X + 1] $
  | U := S $ 2 init [#b, #c]
  | V := S window 2
  | case B in {true}: R := X $ 2 end
  |);
