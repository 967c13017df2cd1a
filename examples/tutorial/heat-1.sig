process HEAT = (? boolean MEASURE; integer T ! boolean ON)
(| T ^= when MEASURE
 | ON := (true when (T < 18)) default (false when (T > 21)) default WAS
 | WAS := ON $ init false
 |)
where boolean WAS; end;
