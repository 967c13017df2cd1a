type T = enum (idle, run);
constant integer N = 3;
process P = (? boolean GO; integer X; T S ! T A, B; integer Y, Z; [N] integer R; integer C)
 (| GO ^= X ^= S ^= A
  | automaton A
      state idle do (| Y := LOCAL | LOCAL := (LOCAL $ 1 init 0) + X | LOCAL ^= X |) where integer LOCAL; end until GO go run
      state run do
        (| automaton B
             state idle do (| Y := (Y $ 1 init 5) + 1 | Y ^= X |) until X > 4 resume run unless X < 0 go run
             state run do (| Y := ((Y $ 1 init 7) + 2) | Y ^= X | Z := X count 3 |) until GO go run until X = 2 resume idle
           end
         | B ^= X
         | case S in {#run}: (| C := (C $ 1 init 0) + X |) end
         | array I to N - 1 of R := R[?] + ((X count 4) + I) with R := (X window 2 init 1)[0] end
        |)
        unless not GO and X > 6 resume idle
        until not GO and X = 5 go run
    end
  |);
