-- Both sides have a say in turn: the client sends a guess, and the server selects how the game goes on.
type Guess = rec g. !Int; &{Less: g, Greater: g, Right: Skip}
type Answer = rec g. ?Int; +{Less: g, Greater: g, Right: Skip}

answer : Int -> Answer -> Skip
answer secret c =
  let (n, c) = receive c in
  if secret < n then answer secret (select Less c)
  else if secret > n then answer secret (select Greater c)
  else select Right c

guess : Int -> Guess -> Int
guess n c = match send n c with {
  Less c -> guess (n - 1) c,
  Greater c -> guess (n + 10) c,
  Right c -> n }

main : Int
main =
  let (a, b) = new Guess in
  fork (answer 28 b);
  guess 10 a
