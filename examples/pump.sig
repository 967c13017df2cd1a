% A pump with two level sensors, which take turns as FRONT tells. Each sensor is read at its own instants, and the pump sees one
  level: it runs from above 80 on until the level is below 20. %
process PUMP = (? boolean FRONT; integer A, B ! boolean PUMPING; integer LEVEL)
(| A ^= when FRONT
 | B ^= when not FRONT
 | LEVEL := A default B
 | PUMPING := (true when (LEVEL > 80)) default (false when (LEVEL < 20)) default WAS
 | WAS := PUMPING $ init false
 | PUMPING ^= LEVEL
 |)
where boolean WAS; end;
