process COUNT = (? event TICK ! integer N)
(| N := ZN + 1
 | ZN := N $ init 0
 | N ^= TICK
 |)
where integer ZN; end;
