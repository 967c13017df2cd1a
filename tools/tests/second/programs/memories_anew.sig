type T = enum (a, b);
process P = (? boolean GO, B; integer X; T S ! T M; integer Y, Z, W, V, U; integer Q)
 (| GO ^= B ^= X ^= S ^= M
  | automaton M
      state a do (| Y := ADD(X) | Z := (X when B) count 3 | W := (X when B) cell GO init 50 | V := X after (B and GO) | U := ((X when B) window 3 init [1, 2])[0] |)
        unless GO and B go b
        until GO go a
        until X = 2 resume b
      state b do (| Y := ADD(ADD(X)) | Z := Y - 1 | case S in {#a}: (| W := (W $ 1 init 1) * 2 | W ^= X |) {#b}: (| W := ADD(X) | V := W |) end |)
        unless X = 7 go a
        until GO resume a
        until B go b
    end
  | case S in {#a}: Q := Y default -1 {#b}: (| Q := ADD(PRE) | PRE := ZX |) where integer PRE; end end
  | ZX := X $ 1 init 77
  |)
where integer ZX;
  process ADD = (? integer I ! integer O) (| O := I + (O $ 1 init 0) | O ^= I |); end;
