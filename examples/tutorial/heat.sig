process HEAT = (? boolean MEASURE; integer T ! boolean ON; integer SHOWN)
(| T ^= when MEASURE
 | SHOWN := T cell ^MEASURE init 20
 | ON := (true when (SHOWN < 18)) default (false when (SHOWN > 21)) default WAS
 | WAS := ON $ init false
 | ON ^= SHOWN
 |)
where boolean WAS; end;
