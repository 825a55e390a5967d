-- From paper to a program. A client greets a mail server by Hello. Then it may do two things, as
-- often as it likes, until it chooses Quit and closes the channel. The one is Check, with the
-- number of a mailbox: the server answers with True or False, whether there is such a box. The
-- other one is Mail, with the number of a mailbox: where there is such a box the server says Known,
-- and otherwise it says Unknown and the mail is over. Behind Known the client sends its text:
-- Letter and a character for each letter, and then End. Behind End the server answers with a
-- number: how many letters came. There are the mailboxes 1 to 9.
--
-- Write the protocol as the type Server, as the server's end has it, and the server. What you need
-- besides, you may add.
type Server = Skip

serve : Server -> ()
serve c = ()

main : Int
main = 5
