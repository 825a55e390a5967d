-- The second move has to be put in before the first one is taken.
play : Int -> Int -> !Int;!Int -> ?Int;?Int 1-> Bool
play m n mine yours =
  let mine = send m mine in
  let mine = send n mine in
  let (x, yours) = receive yours in
  let (y, yours) = receive yours in
  m == x && n == y

main : Bool
main =
  let (a, b) = new (!Int;!Int) in
  let (c, d) = new (!Int;!Int) in
  fork (play 4 5 c b);
  play 4 5 a d
