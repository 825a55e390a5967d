-- A label that the protocol doesn't have.
type Client = +{Add: !Int; !Int; ?Int, Quit: Skip}

client : Client -> Int
client c =
  let (n, d) = receive (send 2 (send 1 (select Sum c))) in
  n

main : Int
main = 5
