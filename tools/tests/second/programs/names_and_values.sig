type T = enum (a, b, c);
constant integer N = 3, I = 50;
constant [N] integer TABLE = [7, N * N, -(2)];
constant T START = #b;
process P = (? integer X, N2; T S; [2, N] integer G ! [N] integer Y; integer Z, Q, R, U; [2, N] integer H; [2, N] integer L; T E; [4] boolean F; [2] T K; integer C)
 (| X ^= S ^= G ^= N2
  | array I to N - 1 of (| Y[I] := (Y0[I] $ 1 init (TABLE[I])) + I |) end
  | Y0 := Y | Y ^= X
  | Z := G[N2, X] + G[N2][0] + I
  | case S in
      {#a}: (| Q := X + N | R := OUT | OUT := X $ |) where constant integer N = 1000; integer OUT init 5; end
      {#b, #c}: (| Q := IN{4, #c}(X) |)
    end
  | H := (N2 : [X, 0, 1]) next ((0 : G[1]) next (G $ 1 init 3))
  | L := G $ 0
  | E := if S = START then #a else S
  | F := [S = #a, X > 0 and true] |+ (not [S = #b, false])
  | K := S window 2 init #c
  | U := IN{2, #a}(X) - IN{N, S1}(X) | C := K1 | K1 := max([abs(X - 3), N, -X])
  |)
where
  constant T S1 = #b;
  [N] integer Y0; integer K1;
  process IN = { integer N; T W } (? integer X ! integer Y)
     (| Y := X + N * M + (if W = #c then 100 else 200) + (X $ N init TABLE2) | (| A := OTHER(X) |) |) where constant integer M = 10 + N, TABLE2 = 3; integer A; end;
end;
process OTHER = (? integer X ! integer Y) Y := X * I;
