% A thermostat with hysteresis: it heats from below 18 on until the temperature is above 21, and in between it goes on
  with what it did. %
process THERMOSTAT = (? integer TEMPERATURE ! boolean HEATING)
  HEATING := HYSTERESIS{18, 21}(TEMPERATURE)
where
  process HYSTERESIS = {integer LOW, HIGH} (? integer X ! boolean ON)
  (| ON := (true when (X < LOW)) default (false when (X > HIGH)) default WAS
   | WAS := ON $ init false
   | ON ^= X
   |)
  where boolean WAS; end;
end;
