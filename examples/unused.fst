-- An end is lost: c has a number left to send, for which the other task would wait for ever.
main : Int
main =
  let (a, b) = new (!Int; !Int) in
  fork (let c = send 1 a in ());
  let (x, b) = receive b in
  let (y, b) = receive b in
  x + y
