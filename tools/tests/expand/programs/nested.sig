% An automaton in a state of another one, and a memory that comes more rarely than its state. %
type OUTER = enum (work, pause);
type INNER = enum (one, two, three);
process NESTED = (? boolean STEP, BREAK, AFRESH; integer A ! OUTER O; INNER I; integer SEEN, BEFORE)
(| STEP ^= BREAK ^= AFRESH ^= A ^= O
 | automaton O
     state work do
       (| automaton I
            state one do (| |) until STEP go two
            state two do (| |) until STEP go three
            state three do (| |) until STEP go one
          end
        | I ^= O
        | SEEN := (SEEN $ 1 init 0) + 1
        | SEEN ^= O
        | BEFORE := (A when A > 10) $ 1 init -1
        |)
       until BREAK go pause
     state pause do (| |)
       until AFRESH go work
       until BREAK resume work
   end
 |);
