constant integer N = 3;
type T = enum (a, b);
process P = (? integer X; boolean B; T S ! integer Y, Z, U; [N] integer R; T M; integer C)
  (| X ^= B ^= S ^= M
   | case B in {true}: case S in {#a}: (| Y := Y0 | Y0 := (Y0 $ 1 init 0) + X | Y0 ^= X |) where integer Y0; end {#b}: (| Y := X count 2 | array I to N - 1 of R := R[?] + I * X with R := X $ 1 init 50 end |) end else case X in {1}: Y := -1 {2, 3}: (| Y := W | W := X $ 1 init 8 |) where integer W; end else Y := X after B end end
   | Z ::= X $ 1 init 2 when B | Z ::= (X when not B) $ 1 init 3
   | automaton M state a do (| U := IN(X when B) | case S in {#a}: C := (X window N init 9)[1] end |) until B and X > 2 go b state b do (| U := IN(IN(X)) |) unless S = #b resume a until X = 4 go b end
   |)
where process IN = (? integer I ! integer O) (| case I in {1, 2}: O := (I $ 1 init 0) + 1 else O := (I $ 2 init [40, 41]) + I end |); end;
