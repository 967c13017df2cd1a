type T = enum (off, on, hot);
process P = (? boolean GO, STOP; integer X ! T M; integer N, K; integer C; [2] integer W; integer F)
 (| GO ^= STOP ^= X ^= M
  | automaton M
      state off do (| N := 0 | K := K0 | K0 := (K0 $ 1 init 10) + X | K0 ^= X |) where integer K0; end
        until GO go on
        unless X > 8 go hot
      state on do (| N := (N $ 1 init 0) + 1 | N ^= M | C := (X when GO) $ 1 init -1 | W := X window 2 init 5 | F := X after STOP |)
        unless STOP go off
        unless X < 0 resume hot
        until N >= 3 go on
        until N >= 2 and GO resume off
      state hot do (| N := 100 | F := (^X) count 2 | C := (X cell STOP init 3) when GO |)
        until X = 1 resume on
    end
  |);
