% A lift of three floors: calls, a sensor of the floor, a motor up and down, a door. %
process LIFT = (? boolean CALL0, CALL1, CALL2; integer FLOOR ! boolean UP, DOWN, OPEN)
(| W0 := CALL0 or (W0 $ init false) and not AT0
 | W1 := CALL1 or (W1 $ init false) and not AT1
 | W2 := CALL2 or (W2 $ init false) and not AT2
 | AT0 := FLOOR = 0 and OPEN
 | AT1 := FLOOR = 1 and OPEN
 | AT2 := FLOOR = 2 and OPEN
 | OPEN := FLOOR = 0 and W0 or FLOOR = 1 and W1 or FLOOR = 2 and W2
 | ABOVE := W1 and FLOOR < 1 or W2 and FLOOR < 2
 | BELOW := W0 and FLOOR > 0 or W1 and FLOOR > 1
 | UP := ABOVE and not OPEN and not DOWN
 | DOWN := BELOW and not OPEN and not UP
 |)
where boolean W0, W1, W2, AT0, AT1, AT2, ABOVE, BELOW; end;
