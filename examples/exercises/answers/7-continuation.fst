-- times sends a number several times, on an end on which anything may follow.
type Sent = rec x. +{One: !Int;x, Done: Skip}
type Received = rec x. &{One: ?Int;x, Done: Skip}

times : forall a:1S. Int -> Int -> Sent;a -> a
times k n c =
  if k == 0 then select Done c
  else times @a (k - 1) n (send n (select One c))

sum : Int -> Received;!Int -> Skip
sum total c = match c with {
  One c ->
    let (n, c) = receive c in
    sum (total + n) c,
  Done c -> send total c }

main : Int
main =
  let (a, b) = new (Sent;?Int) in
  fork (sum 0 b);
  let (n, a) = receive (times @?Int 3 5 a) in
  n
