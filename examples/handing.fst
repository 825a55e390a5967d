-- An end is handed on in the middle of its protocol: the task that took the question in leaves the answer to a further task.
answer : Int -> !Int -> Skip
answer n c = send (n + 1) c

serve : ?Int; !Int -> ()
serve c =
  let (n, c) = receive c in
  fork (answer n c)

main : Int
main =
  let (a, b) = new (!Int; ?Int) in
  fork (serve b);
  let (n, c) = receive (send 41 a) in
  n
