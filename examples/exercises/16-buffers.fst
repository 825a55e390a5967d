-- Two players make two moves each. Here each one looks at the other's first move before it makes
-- its second one. Mend play, so that both make their moves without having seen any. Then the game
-- needs channels that hold two messages: with `run --buffer 1` both wait.
play : Int -> Int -> !Int;!Int -> ?Int;?Int 1-> Bool
play m n mine yours =
  let mine = send m mine in
  let (x, yours) = receive yours in
  let mine = send n mine in
  let (y, yours) = receive yours in
  m == x && n == y

main : Bool
main =
  let (a, b) = new (!Int;!Int) in
  let (c, d) = new (!Int;!Int) in
  fork (play 4 5 c b);
  play 4 5 a d
