type M1 = enum (s, t);
constant integer N = 2;
process P = (? boolean GO; integer X; [N] boolean B ! M1 M; [N] integer S; integer Q, O, C; [N, N] integer G; [N] M1 IS)
 (| GO ^= X ^= B ^= M
  | automaton M
      state s do (| array I to N - 1 of (| S := (S $ 1 init 0) + S[?] + X | S ^= B |) with S := 1 end | Q := RUN(GO, X) | O := DOWN{3}(X) |)
        until GO go t
      state t do (| array J to N - 1 of case B[J] in {true}: S[J] := (X $ 1 init 100) + J else S[J] := X count 5 end end | Q := (RUN(GO, X) when GO) default -7 | O := DOWN{2}(X) + O2 | O2 := X after GO |) where integer O2; end
        until X > 3 go s
        unless X = 9 go t
    end
  | array K to N - 1 of array L to N - 1 of G[K, L] := (X when B[L]) default (K * 10 + L) end end | G ^= X
  | array K to N - 1 of (| automaton IS state s do (| |) until B[K] and OTHER[?] go t state t do (| |) until X < 3 resume s end | OTHER[K] := IS[K] = #s |) with OTHER := true end
  | IS ^= X
  | C := X count 4
  |)
where [N] boolean OTHER;
  process RUN = (? boolean GO; integer X ! integer Y) (| GO ^= X ^= A | automaton A state s do (| Y := X |) until GO go t state t do (| Y := (Y $ 1 init 0) + X | Y ^= X |) until X = 1 go s unless X = 4 resume s end |) where M1 A; end;
  process DOWN = { integer K } (? integer X ! integer Y) (| Y := if Z <= 0 then K else Z - 1 | Z := Y $ 1 init 0 | Y ^= X |) where integer Z; end;
end;
