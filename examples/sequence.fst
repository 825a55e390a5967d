-- Messages pass one after another and in both directions: a number goes, a truth value comes back, a letter goes.
type Client = !Int; ?Bool; !Char
type Server = ?Int; !Bool; ?Char

serve : Server -> Char
serve c =
  let (n, c) = receive c in
  let (letter, d) = receive (send (n < 0) c) in
  letter

main : Bool
main =
  let (a, b) = new Client in
  fork (serve b);
  let (negative, c) = receive (send (0 - 5) a) in
  send 'x' c;
  negative
