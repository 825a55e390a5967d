-- An end is used twice: send gives back the end for what follows, d, and the one before it is used up.
give : !Int; !Int -> Skip
give c =
  let d = send 1 c in
  send 2 c

main : Int
main =
  let (a, b) = new (!Int; !Int) in
  fork (give a);
  let (x, b) = receive b in
  let (y, b) = receive b in
  x + y
