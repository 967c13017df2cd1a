% An edge detector: RISE comes at an instant of LEVEL at which it is true and was not before, FALL at one at which
  it is not and was. %
process EDGE = (? boolean LEVEL ! event RISE, FALL)
(| WAS := LEVEL $ init false
 | RISE := when (LEVEL and not WAS)
 | FALL := when (WAS and not LEVEL)
 |)
where boolean WAS; end;
