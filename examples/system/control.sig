% A pump that runs from 80 on until the level is below 40. PUMP comes where it changes, STATE at each level. %
process CONTROL = (? integer LEVEL ! boolean PUMP, STATE)
(| STATE := (LEVEL >= 80) or (LAST and (LEVEL >= 40))
 | LAST := STATE $ init false
 | PUMP := STATE when (STATE /= LAST)
 |)
where boolean LAST; end;
