-- Each form of type and term, within parentheses that it needs and that it doesn't. Nothing here has to mean anything.
-- Types
type T = ((Skip))
type T = (!Int)
type T = (?Bool)
type T = (Close)
type T = (Wait)
type T = (Char)
type T = (())
type T = (a)
type T = (A)
type T = !Int; (?Bool; (Skip))
type T = (!Int; ?Bool); Skip
type T = (Close; a); (Wait; Close)
type T = (rec a. a); !Int
type T = !Int; (rec a. (a))
type T = (Int -> Int); (Int -> Int)
type T = rec a. (Int -> Int)
type T = rec a. (&{A: ((!Int); a)})
type T = +{N: (Int -> Int), L: (Skip)}
type T = Int -> (() 1-> (Char))
type T = (Int -> Int) -> Int
type T = (!Int; ?Bool) -> (A)
type T = (rec a. a) -> (rec a. a)
type T = ((Int), ())
type T = ((Int -> Int), (Int, (a)))
-- Atoms
it = (x)
it = x @(A; a)
it = (x @(Int) @(rec a. (!Int; a)) @(+{N: (Int -> Int), L: Skip}))
it = 007
it = 09223372036854775807
it = (True)
it = False
it = 'é'
it = '\n'
it = '\t'
it = '\\'
it = '\''
it = (())
it = ((x; y), (\x: !Int; Skip 1-> x))
it = (A)
-- Applications
it = A (x)
it = A (f x) (A)
it = A (A (x)) ((x, y))
it = (f) (x)
it = (f x) y
it = f (x y)
it = f (A)
it = f (A x)
it = (A) x
it = (A x) y
it = (\f: (Int -> Int) -> (f)) x
it = (receive x) y
it = (x @Int) x
it = f (\f: (Int -> Int) -> x)
-- Channels
it = new (!Int)
it = new (!Int; Skip)
it = send (f x) (y)
it = send 7 (A x)
it = receive (not x)
it = close (x)
it = wait (f x)
it = (close x) y
it = select L (f x)
it = fork (x; y)
it = fork (A)
-- What goes on to the end
it = \f: ((Int -> Int)) -> f
it = \x: (!Int; Skip) 1-> (x; y)
it = let x = (f x) in (x)
it = let x = (x; y) in (let x = y in (x; y))
it = let (x, y) = (x) in y
it = if (x && y) then x else (y)
it = if x then (if y then x else y) else (if y then x else y)
it = case (x) of {B x y -> (x; y), A -> x}
it = case 7 of {B x y -> (case x of {B x y -> y, A -> x}), A -> x}
it = match (x) with {N x -> (y), L y -> x}
it = x; (y; (x))
it = (x; y); x
it = (let x = x in y); x
-- Signs
it = (x) || (y)
it = (x) && (y)
it = (x) == (y)
it = (x) /= (y)
it = (x) < (y)
it = (x) <= (y)
it = (x) > (y)
it = (x) >= (y)
it = (x) + (y)
it = (x) - (y)
it = (x) * (y)
-- Chains
it = (x || y) || x
it = x || (y || x)
it = (x && y) && x
it = x && (y && x)
it = (x && y) || (y && x)
it = (x || y) && (y || x)
it = (x - y) - x
it = x - (y - x)
it = (x - y) + x
it = (x * y) * x
it = x * (y * x)
it = (x * y) + (y * x)
it = (x + y) * (y + x)
-- Comparisons and negations
it = (x == y) == x
it = x == (y < x)
it = (x + y) < (y - x)
it = (x == y) && (y < x)
it = (x && y) == x
it = (not x) + x
it = not (x)
it = not (not x)
it = not (f x)
it = not (x && y)
it = not (x == y)
it = (\f: (Int -> Int) -> x) + x
it = (f x) * (f y)
