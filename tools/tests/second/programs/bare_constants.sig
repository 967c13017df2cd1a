process P = (? integer X, A; boolean B ! integer Y, Z, U, V; boolean Q; integer R)
 pragmas Comes {A} end pragmas
 (| X ^= B ^= HAS_A
  | Y := A default 0 | Y ^= X
  | Z := (A default 0) + X
  | U := (A default 0) when B
  | V := X when ((A > 3) default false)
  | Q := (A > (X when HAS_A)) default true | Q ^= X
  | R := (A default 7) $ 1 init 5 | R ^= X
  |);
