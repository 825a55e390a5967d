-- Messages in the wrong order: the protocol has the number first.
type Client = !Int; !Bool

client : Client -> Skip
client c = send 5 (send True c)

main : Int
main =
  let (a, b) = new Client in
  fork (client a);
  let (n, b) = receive b in
  let (known, b) = receive b in
  n
