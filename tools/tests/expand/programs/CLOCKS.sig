% Constants and processes of several programs. %
module CLOCKS =
  constant integer MINUTE = 4, HOUR = 3 * MINUTE;
  process RISES = (? boolean B ! event UP) UP := when (B and not (B $ 1 init false));
end;
