% N zones are heated, each by its own thermostat. An automaton switches all of them: it is off, runs, or gives the alarm
  where too many zones are too hot, and then stays there for a while. What is claimed: nothing heats but while it runs. %
constant integer N = 3, LOW = 18, HIGH = 21, LIMIT = 30, MANY = 2, REST = 3;
type MODE = enum (off, run, alarm);
process ZONES = (? [N] integer T; boolean START, STOP ! MODE M; [N] boolean HEAT; integer HOT)
(| T ^= START ^= STOP ^= M
 | array I to N - 1 of
     (| WANT[I] := THERMOSTAT{LOW, HIGH}(T[I])
      | SUM := SUM[?] + (if T[I] > LIMIT then 1 else 0)
      | assert(not HEAT[I] or M = #run)
      |)
   with SUM := 0 end
 | HOT := SUM[N - 1]
 | automaton M
     state off do HEAT := false |* N
       until START go run
     state run do HEAT := WANT
       unless HOT >= MANY go alarm
       until STOP go off
     state alarm do
       (| HEAT := false |* N
        | AGE := (AGE $ 1 init 0) + 1
        | AGE ^= M
        |) where integer AGE; end
       until HOT = 0 and AGE >= REST go off
   end
 |)
where
  [N] boolean WANT;
  [N] integer SUM;
  process THERMOSTAT = { integer FROM, TO; } (? integer X ! boolean ON)
    (| ON := if X < FROM then true else if X > TO then false else ON $ 1 init false |);
end;
