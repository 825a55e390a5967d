-- A sender waits until its message is received. main waited on the second channel for a message
-- that the other task sends only once its first one was received.
main : Int
main =
  let (a, b) = new !Int in
  let (c, d) = new !Int in
  fork (let a = send 3 a in send 4 c);
  let (x, b) = receive b in
  let (y, d) = receive d in
  x * y
