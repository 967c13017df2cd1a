process COUNT = (? event TICK ! integer N)
(| N := N + 1
 | N ^= TICK
 |);
