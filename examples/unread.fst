-- What is sent may stay in its channel (`run --buffer 1`): before the second number is received, its receiver waits for a signal,
-- which never comes, since the sender waits for itself.
listen : ?Int; ?Int -> ?Int 1-> Int
listen numbers signal =
  let (m, numbers) = receive numbers in
  let (k, signal) = receive signal in
  let (n, numbers) = receive numbers in
  m + n

main : Int
main =
  let (a, b) = new (!Int; !Int) in
  let (c, d) = new !Int in
  fork (listen b d);
  let a = send 2 (send 1 a) in
  let (x, y) = new !Int in
  let (k, y) = receive y in
  let x = send k x in
  let c = send k c in
  k
