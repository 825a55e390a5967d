-- An end is used in one branch alone, so that nothing is sent where the other one is taken.
answer : Bool -> !Int -> ()
answer known c = if known then send 42 c; () else ()

main : Int
main = 5
