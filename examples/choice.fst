-- One side selects a label, the other side offers all of them and goes on as the label says.
type Client = +{Double: !Int; ?Int, Quit: Skip}
type Server = &{Double: ?Int; !Int, Quit: Skip}

serve : Server -> Skip
serve c = match c with {
  Double c ->
    let (n, c) = receive c in
    send (2 * n) c,
  Quit c -> c }

main : Int
main =
  let (a, b) = new Client in
  let (c, d) = new Client in
  fork (serve b);
  fork (serve d);
  select Quit c;
  let (n, e) = receive (send 21 (select Double a)) in
  n
