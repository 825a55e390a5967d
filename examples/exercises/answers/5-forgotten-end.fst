-- A server that calculates. If it kept the sum to itself, its client would wait for it for ever.
type Client = +{Double: !Int;?Int, Sum: !Int;!Int;?Int}
type Server = &{Double: ?Int;!Int, Sum: ?Int;?Int;!Int}

serve : Server -> Int
serve c = match c with {
  Double c ->
    let (x, c) = receive c in
    let c = send (2 * x) c in
    2 * x,
  Sum c ->
    let (x, c) = receive c in
    let (y, c) = receive c in
    let c = send (x + y) c in
    x + y }

main : Int
main =
  let (a, b) = new Client in
  fork (serve b);
  let (n, c) = receive (send 4 (send 3 (select Sum a))) in
  n
