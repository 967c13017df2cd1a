process DOWN = (? integer A ! integer Y) (| Y := A default (ZY - 1) | ZY := Y $ init 0 | A ^= when (ZY <= 0) |) where integer ZY; end;
