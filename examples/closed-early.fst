-- A client closes before it has read the answer.
type Client = !Int;?Int;Close

ask : Client -> ()
ask c = close (send 5 c)

main : Int
main = 5
