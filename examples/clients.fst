-- One server answers two clients, each in a task of its own.
type Ask = !Int; ?Int
type Answer = ?Int; !Int

square : Answer -> Int
square c =
  let (x, c) = receive c in
  let d = send (x * x) c in
  x

client : Int -> Ask -> Bool
client n c =
  let (square, d) = receive (send n c) in
  square == n * n

main : (Int, Int)
main =
  let (a, b) = new Ask in
  let (c, d) = new Ask in
  fork (client 3 a);
  fork (client 4 c);
  (square b, square d)
