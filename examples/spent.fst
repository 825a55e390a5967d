-- An end on which nothing is left to do isn't linear any more: it may be used twice, or not at all.
main : Int
main =
  let (a, b) = new !Int in
  fork (send 5 a);
  let (n, spent) = receive b in
  let both = (spent, spent) in
  n
