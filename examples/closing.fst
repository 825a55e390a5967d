-- One server and two clients, one after the other: it turns to the second client once the first one has closed its channel.
type Client = rec x. +{Add: !Int;x, Sum: ?Int;Close}
type Server = rec x. &{Add: ?Int;x, Sum: !Int;Wait}

serve : Int -> Server -> ()
serve sum c = match c with {
  Add c -> let (n, c) = receive c in serve (sum + n) c,
  Sum c -> wait (send sum c) }

ask : Int -> Int -> Client -> Int
ask m n c =
  let c = send m (select Add c) in
  let c = send n (select Add c) in
  let (sum, c) = receive (select Sum c) in
  close c; sum

main : (Int, Int)
main =
  let (a, b) = new Client in
  let (c, d) = new Client in
  fork (serve 0 b; serve 0 d);
  let first = ask 20 22 a in
  (first, ask first 1 c)
