-- times sends a number several times. It wants an end on which nothing follows, and here an answer
-- follows.
type Sent = rec x. +{One: !Int;x, Done: Skip}
type Received = rec x. &{One: ?Int;x, Done: Skip}

times : Int -> Int -> Sent -> Skip
times k n c =
  if k == 0 then select Done c
  else times (k - 1) n (send n (select One c))

sum : Int -> Received;!Int -> Skip
sum total c = match c with {
  One c ->
    let (n, c) = receive c in
    sum (total + n) c,
  Done c -> send total c }

main : Int
main =
  let (a, b) = new (Sent;?Int) in
  fork (sum 0 b);
  let (n, a) = receive (times 3 5 a) in
  n
