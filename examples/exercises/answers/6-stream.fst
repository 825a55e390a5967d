-- A server that answers each number with the sum of all so far.
type Client = rec x. +{Add: !Int;?Int;x, Stop: Skip}
type Server = rec x. &{Add: ?Int;!Int;x, Stop: Skip}

sums : Int -> Server -> Skip
sums total c = match c with {
  Add c ->
    let (n, c) = receive c in
    sums (total + n) (send (total + n) c),
  Stop c -> c }

main : (Int, Int)
main =
  let (a, b) = new Client in
  fork (sums 0 b);
  let (x, a) = receive (send 3 (select Add a)) in
  let (y, a) = receive (send 4 (select Add a)) in
  let a = select Stop a in
  (x, y)
