-- From paper to a program. A client sends one value as a stream: Null; or Number and the number; or
-- List and then the values in it, each behind Item, and End behind the last one. The values of a
-- list may be lists, to any depth. Once the whole value has come, the server answers with two
-- numbers: how many numbers there were in the value, and their sum.
--
-- Write the protocol as the type Server, as the server's end has it, and the server. What you need
-- besides, you may add. Which type is left where a value within a list has come?
type Server = Skip

serve : Server -> Skip
serve c = c

main : Int
main = 5
