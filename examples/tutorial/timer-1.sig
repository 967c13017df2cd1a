process TIMER = (? event TICK, RESET ! integer N)
(| N := (0 when RESET) default (ZN + 1)
 | ZN := N $ init 0
 | N ^= TICK
 |)
where integer ZN; end;
