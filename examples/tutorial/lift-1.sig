process LIFT = (? integer POS; event CALL ! boolean CALLED; integer FLOOR)
(| FLOOR := POS / 100
 | CALLED := CALL default (false when ^POS)
 |);
