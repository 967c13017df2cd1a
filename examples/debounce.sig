% A debouncer: CLEAN follows RAW once RAW has kept its value for three instants. RUN counts for how long it has. %
process DEBOUNCE = (? boolean RAW ! boolean CLEAN)
(| LAST := RAW $ init false
 | RUN := (1 when (RAW /= LAST)) default (3 when (ZRUN >= 3)) default (ZRUN + 1)
 | ZRUN := RUN $ init 3
 | RUN ^= RAW
 | CLEAN := (RAW when (RUN >= 3)) default WAS
 | WAS := CLEAN $ init false
 | CLEAN ^= RAW
 |)
where boolean LAST, WAS; integer RUN, ZRUN; end;
