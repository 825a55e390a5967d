-- A server that doesn't answer all labels which its protocol offers.
serve : &{Add: ?Int; ?Int; !Int, Quit: Skip} -> Skip
serve c = match c with {
  Add c ->
    let (x, c) = receive c in
    let (y, c) = receive c in
    send (x + y) c }

main : Int
main = 5
