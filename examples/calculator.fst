-- A server adds two numbers or says whether a number is zero, as the client chooses.
type Client = +{IsZero: !Int; ?Bool, Add: !Int; !Int; ?Int}
type Server = &{IsZero: ?Int; !Bool, Add: ?Int; ?Int; !Int}

serve : Server -> Skip
serve c = match c with {
  IsZero c ->
    let (x, c) = receive c in
    send (x == 0) c,
  Add c ->
    let (x, c) = receive c in
    let (y, c) = receive c in
    send (x + y) c }

main : (Int, Bool)
main =
  let (a, b) = new Client in
  let (c, d) = new Client in
  fork (serve b);
  fork (serve d);
  let (sum, e) = receive (send 4 (send 3 (select Add a))) in
  let (zero, f) = receive (send (sum - 2 * 3) (select IsZero c)) in
  (sum, not zero && sum /= 8)
