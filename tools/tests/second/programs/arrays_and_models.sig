type T = enum (a, b); type U = enum (b, c, a);
constant integer N = 2;
constant [N, 3] integer M = [[1, 2, 3], [4, 5, 6]];
process P = (? integer X; T S; U R ! [N, 3] integer Y; integer Z, Q, G; [N] integer W; boolean O; U H; [N, 3] integer D; [2] integer E2)
 (| X ^= S ^= R
  | array I to N - 1 of array J to 2 of Y[I, J] := X * M[I, J] + I - J end end
  | (Z, W[1]) := TWO{N}(X, 3)
  | W[0] := Y[1, 2] - Y[0][1]
  | O := S = #a and R /= #b
  | H := if S = T#b then #c else R
  | case S in {#a}: Q := X {#b}: Q := -1 end
  | D := Y $ 2 init [[[1,2,3],[4,5,6]],[[7,8,9],[0,1,2]]]
  | E2 := [X, X + 1] $ 2 init [[1, 2], [3, 4]]
  | L:: G := min(X, Z, N) - max(1, X)
  |)
where
 process TWO = { integer N } (? integer A, B ! integer C, D) (| C := A + B * N + N1 | D := IN(A) |) where constant integer N1 = 7 * N;
   process IN = (? integer A ! integer B) B := A * N1 + (A $ 1 init N); end;
end;
