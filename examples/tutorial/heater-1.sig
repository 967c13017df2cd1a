process HYSTERESIS = {integer LOW, HIGH} (? integer X ! boolean ON)
(| ON := (true when (X < LOW)) default (false when (X > HIGH)) default WAS
 | WAS := ON $ init false
 | ON ^= X
 |)
where boolean WAS; end;
process HEATER = (? integer T ! boolean ON)
(| ON := HYSTERESIS{18, 21}(T)
 |);
