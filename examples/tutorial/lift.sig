process LIFT = (? boolean SENSED, PRESSED; integer POS; event CALL ! boolean CALLED; integer FLOOR)
(| SENSED ^= PRESSED
 | POS ^= when SENSED
 | CALL ^= when PRESSED
 | FLOOR := POS / 100
 | CALLED := CALL default (false when ^POS)
 |);
