-- A register hands out numbers, one behind the other. It should turn to the second client once the
-- first one has closed its channel, and so far nobody closes one. Let a client close its channel
-- behind Leave, and mend both types, serve and visit.
type Client = rec x. +{Take: ?Int;x, Leave: Skip}
type Server = rec x. &{Take: !Int;x, Leave: Skip}

serve : Int -> Server -> Int
serve n c = match c with {
  Take c -> serve (n + 1) (send n c),
  Leave c -> n }

visit : Int -> Client -> Int
visit last c =
  let (n, c) = receive (select Take c) in
  if n < last then visit last c
  else let c = select Leave c in n

main : ((Int, Int), Int)
main =
  let (a, b) = new Client in
  let (c, d) = new Client in
  let (p, q) = new !Int in
  fork (let n = serve 1 b in send (serve n d) p);
  let first = visit 3 a in
  let second = visit 5 c in
  let (next, q) = receive q in
  ((first, second), next)
