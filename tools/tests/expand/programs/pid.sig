constant integer ONE = 1000;
process PID = (? integer SET, MEAS ! integer U)
(| U := CONTROL{800, 50, 200, 10 * ONE}(SET - MEAS) |)
where
  process CONTROL = { integer KP, KI, KD, LIMIT; } (? integer E ! integer U)
    (| SUM := LIMITED{-LIMIT, LIMIT}(ZSUM + E)
     | ZSUM := SUM $ init 0
     | DIFF := E - (E $ 1 init 0)
     | U := LIMITED{-LIMIT, LIMIT}((KP * E + KI * SUM + KD * DIFF) / ONE)
     |)
  where integer SUM, ZSUM, DIFF; end;
  process LIMITED = { integer LOW, HIGH; } (? integer X ! integer Y) Y := max(LOW, min(HIGH, X));
end;
