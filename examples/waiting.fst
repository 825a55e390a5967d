-- Two tasks wait for each other, each at the channel that the other one comes to last.
main : Int
main =
  let (a, b) = new !Int in
  let (c, d) = new !Int in
  fork (let (x, e) = receive d in send x a);
  let (y, e) = receive b in
  send y c;
  y
