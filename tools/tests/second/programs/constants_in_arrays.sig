constant [2] integer C = [1, 2];
process CONSTANTS_IN_ARRAYS = (? integer X; boolean B ! [2] integer Y1, Y2, Y3, Y4, Y5, Y6; integer Y7, Y8; [2] boolean Y9)
(| X ^= B
 | Y1 := [X, 1] $ 1 init 0
 | Y2 := [X when B, 1] default [X, X + 1]
 | Y3 := [X when B, 1] cell not B init 0
 | Y4 := ([1] |+ [X when B]) default [X, X + 1]
 | Y5 := (((X when B) - 5 : 5) next [1, 2]) default [X, X]
 | Y6 := ((0 : X when B) next C) default [X, X + 1]
 | Y7 := ([X when B, 1])[1] count 3
 | Y8 := ((C + [X when B, 0])[1]) default X
 | Y9 := ([X when B, 1] = C) default [true, B]
 |);
