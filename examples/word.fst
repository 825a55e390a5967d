-- Characters: a word goes letter by letter, and its greatest letter is found, since letters compare by their numbers in Unicode.
data Word = End | Letter Char Word
type Sent = rec w. +{Letter: !Char; w, End: Skip}
type Received = rec w. &{Letter: ?Char; w, End: Skip}

sendWord : Word -> Sent -> Skip
sendWord word c = case word of {
  End -> select End c,
  Letter x word -> sendWord word (send x (select Letter c)) }

greatest : Char -> Received -> Char
greatest x c = match c with {
  Letter c ->
    let (y, c) = receive c in
    if x < y then greatest y c else greatest x c,
  End c -> x }

main : Char
main =
  let (a, b) = new Sent in
  fork (sendWord (Letter 'z' (Letter 'é' (Letter '\'' End))) a);
  greatest 'a' b
