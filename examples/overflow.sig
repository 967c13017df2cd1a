process TWICE = (? integer A ! integer Y)
  Y := A + A;
