-- Equivalent types stand for one another: what follows a choice may be written behind it or in each of its branches.
type Behind = +{Number: !Int, Letter: !Char}; ?Bool
type Within = +{Number: !Int; ?Bool, Letter: !Char; ?Bool}

ask : Within -> Bool
ask c =
  let (answer, d) = receive (send 'k' (select Letter c)) in
  answer

serve : &{Number: ?Int, Letter: ?Char}; !Bool -> Skip
serve c = match c with {
  Number c ->
    let (n, c) = receive c in
    send (n == 0) c,
  Letter c ->
    let (letter, c) = receive c in
    send (letter == 'k') c }

main : Bool
main =
  let (a, b) = new Behind in
  fork (serve b);
  ask a
