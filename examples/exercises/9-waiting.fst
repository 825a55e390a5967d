-- One task sends on two channels, and the other one receives on both.
main : Int
main =
  let (a, b) = new !Int in
  let (c, d) = new !Int in
  fork (let a = send 3 a in send 4 c);
  let (y, d) = receive d in
  let (x, b) = receive b in
  x * y
