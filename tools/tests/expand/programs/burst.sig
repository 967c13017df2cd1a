process BURST = (? integer N; event TICK ! event PULSE; integer LEFT)
  pragmas Comes {TICK} end pragmas
(| N ^= TICK when (ZLEFT = 0)
 | LEFT := N default (ZLEFT - 1)
 | ZLEFT := LEFT $ 1 init 0
 | LEFT ^= TICK
 | PULSE := when LEFT > 0
 |)
where integer ZLEFT; end;
