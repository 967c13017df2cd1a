constant integer N = 4;
process P = (? integer X; boolean B, C ! [N] integer S, F; integer G, H; [2] integer Z; boolean Q; integer J)
 (| X ^= B ^= C
  | array I to N - 1 of (| T := X * I + (T $ 1 init I) | T ^= X | S[I] := T + S[?] |) where integer T; end with S := T0 $ 1 init 9 end
  | T0 := X
  | array I to -1 of S[I] := 0 end
  | array J to N - 1 of F[J] := if J > 0 then F[?] else 100 with F := 3 end | F ^= X
  | G ::= X when B | G ::= -1 when not B
  | H := (X after (when B)) default (X from C) | Z := [1, 2] | Z ^= when B
  | Q := (^X when B) default false | Q ^= X
  | J := T0 + UU | UU := max(-9223372036854775807, X) - 1
  |) where integer T0; process Y = (? ! ) (| |); integer UU; end;
