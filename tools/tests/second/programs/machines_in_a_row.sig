type T = enum (idle, run);
constant integer N = 3;
process P = (? [N] boolean GO; integer X ! [N] T M; [N] integer K)
 (| GO ^= X ^= M
  | array I to N - 1 of
     (| automaton M
         state idle do (| K := (K $ 1 init I) + 1 | K ^= X |) until GO[I] go run
         state run do (| K := (K $ 1 init 10 * I) + X | K ^= X |) until X > 5 resume idle unless GO[I] and X = 2 go run
       end |)
    end
  |);
