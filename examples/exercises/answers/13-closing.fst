-- serve goes on only once the client has closed its channel, since wait and close meet.
type Client = rec x. +{Take: ?Int;x, Leave: Close}
type Server = rec x. &{Take: !Int;x, Leave: Wait}

serve : Int -> Server -> Int
serve n c = match c with {
  Take c -> serve (n + 1) (send n c),
  Leave c -> wait c; n }

visit : Int -> Client -> Int
visit last c =
  let (n, c) = receive (select Take c) in
  if n < last then visit last c
  else close (select Leave c); n

main : ((Int, Int), Int)
main =
  let (a, b) = new Client in
  let (c, d) = new Client in
  let (p, q) = new !Int in
  fork (let n = serve 1 b in send (serve n d) p);
  let first = visit 3 a in
  let second = visit 5 c in
  let (next, q) = receive q in
  ((first, second), next)
