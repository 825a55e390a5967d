-- A function with type variables is named with a type for each of them: here pass @Int.
pass : forall a:*T. a -> a
pass x = x

main : Int
main = pass 5
