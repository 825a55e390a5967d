-- A function over protocols: two takes two numbers off the front of any protocol, and gives back the end for what follows.
two : forall a:1S. ?Int; ?Int; a -> (Int, a)
two c =
  let (x, c) = receive c in
  let (y, c) = receive c in
  (x + y, c)

serve : ?Int; ?Int; !Int; ?Int; ?Int -> Int
serve c =
  let (x, c) = two @(!Int; ?Int; ?Int) c in
  let (y, d) = two @Skip (send x c) in
  x * y

client : !Int; !Int; ?Int; !Int; !Int -> Skip
client c =
  let (sum, c) = receive (send 2 (send 1 c)) in
  send sum (send 10 c)

main : Int
main =
  let (a, b) = new (!Int; !Int; ?Int; !Int; !Int) in
  fork (client a);
  serve b
