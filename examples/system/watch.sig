% ALARM comes where the pump has run at three levels, one behind the other, and the last one is not below 80. %
process WATCH = (? boolean STATE; integer LEVEL ! boolean ALARM)
(| N := (OLD + 1 when STATE) default (0 when (not STATE))
 | OLD := N $ init 0
 | ALARM := (^LEVEL) when (N = 3) when (LEVEL >= 80)
 | STATE ^= LEVEL ^= N
 |)
where integer N, OLD; end;
