"""The exercises: of each one its title, the file to start from, and the checks that a solution has to pass, in their order.

In the module of a trial the names of the solution are used at types that are written out, so that what its aliases say makes no
difference. Its own `main` is called try_own there.
"""
import collections

from judge import WAITS, accepted, certificate, one_of, only, predicted, protocol, runs, same_words, trial, within, written_once

Task = collections.namedtuple("Task", "title start checks")


def double(n):
    return trial(f"`serve` is asked to Double {n}; then what it gives back and what it sends", f"""
main : (Int, Int)
main =
  let (a, b) = new (+{{Double: !Int;?Int, Sum: !Int;!Int;?Int}}) in
  let (c, d) = new !Int in
  fork (send (serve b) c);
  let (sent, a) = receive (send {n} (select Double a)) in
  let (given, d) = receive d in
  (given, sent)
""", f"result ({2 * n}, {2 * n})")


def add(m, n):
    return trial(f"`serve` is asked for the Sum of {m} and {n}; then what it gives back and what it sends", f"""
main : (Int, Int)
main =
  let (a, b) = new (+{{Double: !Int;?Int, Sum: !Int;!Int;?Int}}) in
  let (c, d) = new !Int in
  fork (send (serve b) c);
  let (sent, a) = receive (send {n} (send {m} (select Sum a))) in
  let (given, d) = receive d in
  (given, sent)
""", f"result ({m + n}, {m + n})")


def stream(total, m, n):
    return trial(f"`sums {total}`, and Add {m}, Add {n}, Stop", f"""
main : (Int, Int)
main =
  let (a, b) = new (rec x. +{{Add: !Int;?Int;x, Stop: Skip}}) in
  fork (sums {total} b);
  let (x, a) = receive (send {m} (select Add a)) in
  let (y, a) = receive (send {n} (select Add a)) in
  let a = select Stop a in
  (x, y)
""", f"result ({total + m}, {total + m + n})")


def times(count, n):
    return trial(f"`times {count} {n}` on an end on which !Bool;?Char follows", f"""
main : (Int, Char)
main =
  let (a, b) = new ((rec x. +{{One: !Int;x, Done: Skip}});!Bool;?Char) in
  let (c, d) = new !Int in
  fork (try_all 0 b c);
  let (letter, a) = receive (send True (times @(!Bool;?Char) {count} {n} a)) in
  let (all, d) = receive d in
  (all, letter)

try_all : Int -> (rec x. &{{One: ?Int;x, Done: Skip}});?Bool;!Char -> !Int 1-> Skip
try_all all b c = match b with {{
  One b -> let (n, b) = receive b in try_all (100 * all + n) b c,
  Done b -> let (answer, b) = receive b in let b = send 'e' b in send all c }}
""", f"result ({int(f'{n:02}' * count or '0')}, 'e')")


def price(thing, answer):
    return trial(f"`shop` is asked for {thing}", f"""
data Try_Answer = Try_Price Int | Try_Unknown

main : Try_Answer
main =
  let (a, b) = new (!Int;&{{Price: ?Int, Unknown: Skip}}) in
  fork (shop b);
  match send {thing} a with {{
    Price a -> let (n, a) = receive a in Try_Price n,
    Unknown a -> Try_Unknown }}
""", f"result Try_Price {answer}" if answer else "result Try_Unknown")


def asking(thing, term, answer):
    return trial(f"`ask {thing}`, which is answered by `{term}`", f"""
main : Answer
main =
  let (a, b) = new (!Int;&{{Price: ?Int, Unknown: Skip}}) in
  fork (let (thing, b) = receive b in {term});
  ask {thing} a
""", f"result {answer}", f"history 0#1 : !{thing} {'&Unknown' if answer == 'Nothing' else '&Price ?' + answer.split()[1]}")


def running(total, tree, answers, last):
    return trial(f"`sums {total}` with the tree {tree}, and !Int behind it, as the sum that it gives back", f"""
main : (Tree, Int)
main =
  let (a, b) = new ((rec x. +{{Leaf: Skip, Node: x;!Int;?Int;x}});?Int) in
  fork (let (total, b) = sums @!Int {total} b in send total b);
  let (tree, a) = exchange @?Int ({tree}) a in
  let (total, a) = receive a in
  (tree, total)
""", f"result ({answers}, {last})")


def register(first, last, other):
    one = max(first, last)
    two = max(one + 1, other)
    return trial(f"`serve {first}` with `visit {last}`, and behind it with `visit {other}`", f"""
main : ((Int, Int), Int)
main =
  let (a, b) = new (rec x. +{{Take: ?Int;x, Leave: Close}}) in
  let (c, d) = new (rec x. +{{Take: ?Int;x, Leave: Close}}) in
  let (p, q) = new !Int in
  fork (let n = serve {first} b in send (serve n d) p);
  let one = visit {last} a in
  let two = visit {other} c in
  let (next, q) = receive q in
  ((one, two), next)
""", f"result (({one}, {two}), {two + 1})")


def work(n):
    return 7 if n == 0 else 3 * work(n - 1) - n


def share(m, n, most):
    difference = work(m) - work(n)
    main = f"main : Int\nmain = difference {m} {n}"
    return within(most, f"`difference {m} {n}` with its events", main, f"result {difference}")


def game(first, second, buffer, wanted):
    return trial(f"`play {first}` against `play {second}` with --buffer {buffer}", f"""
main : (Bool, Bool)
main =
  let (a, b) = new (!Int;!Int) in
  let (c, d) = new (!Int;!Int) in
  let (p, q) = new !Bool in
  fork (send (play {first} c b) p);
  let mine = play {second} a d in
  let (yours, q) = receive q in
  (mine, yours)
""", *wanted, options=[f"--buffer={buffer}"])


MAIL = (
    "rec s. {0}{{Check: {1}Int;{2}Bool;s, Mail: {1}Int;{3}{{Known: (rec t. {0}{{Letter: {1}Char;t, End: Skip}});{2}Int;s, Unknown: s}}, "
    "Quit: {4}}}"
)
CLIENT, SERVER = MAIL.format("+", "!", "?", "&", "Close"), MAIL.format("&", "?", "!", "+", "Wait")


def mail(*steps):
    """Each step is `Check` and a box, or `Mail`, a box and how many letters. The answers are kept, the last one first."""
    term, wanted = "(Try_None, select Hello a)", "Try_None"
    for step, box, *letters in steps:
        term = f"(try_{step.lower()} {box} {' '.join(map(str, letters))} {term})"
        known = 1 <= box <= 9
        answer = f"Try_Check {known}" if step == "Check" else f"Try_Letters {letters[0]}" if known else "Try_Unknown"
        wanted = f"{answer} {wanted if wanted == 'Try_None' else f'({wanted})'}"
    tried = ", ".join(" ".join(map(str, step)) for step in steps)
    return trial(f"`serve` with Hello, {tried}{', ' * bool(steps)}Quit (of Mail the box, and how many letters)", f"""
data Try_Answers = Try_None | Try_Check Bool Try_Answers | Try_Letters Int Try_Answers | Try_Unknown Try_Answers
type Try_Client = {CLIENT}

main : Try_Answers
main =
  let (a, b) = new (+{{Hello: Try_Client}}) in
  let (p, q) = new !() in
  fork (serve b; send () p);
  let (answers, a) = {term} in
  close (select Quit a);
  let (ended, q) = receive q in
  answers

try_check : Int -> (Try_Answers, Try_Client) -> (Try_Answers, Try_Client)
try_check n both =
  let (answers, a) = both in
  let (answer, a) = receive (send n (select Check a)) in
  (Try_Check answer answers, a)

try_mail : Int -> Int -> (Try_Answers, Try_Client) -> (Try_Answers, Try_Client)
try_mail n letters both =
  let (answers, a) = both in
  match send n (select Mail a) with {{
    Known a ->
      let (n, a) = receive (try_letters @(?Int;Try_Client) letters a) in
      (Try_Letters n answers, a),
    Unknown a -> (Try_Unknown answers, a) }}

try_letters : forall a:1S. Int -> (rec t. +{{Letter: !Char;t, End: Skip}});a -> a
try_letters n c = if n == 0 then select End c else try_letters @a (n - 1) (send 'x' (select Letter c))
""", f"result {wanted}")


VALUE = "rec v. {0}{{Null: Skip, Number: {1}Int, List: rec l. {0}{{Item: v;l, End: Skip}}}}"
SENT, RECEIVED = VALUE.format("+", "!"), VALUE.format("&", "?")


def sent(value, end):
    """Returns the term that sends a value, None, a number or a list of values, on this end."""
    if value is None:
        return f"(select Null {end})"
    if isinstance(value, int):
        return f"(send {value} (select Number {end}))"
    end = f"(select List {end})"
    for item in value:
        end = sent(item, f"(select Item {end})")
    return f"(select End {end})"


def numbers(value):
    """Returns the numbers in a value."""
    if isinstance(value, list):
        return [number for item in value for number in numbers(item)]
    return [] if value is None else [value]


def value(value):
    return trial(f"`serve` with the value {value}".replace("None", "Null"), f"""
main : (Int, Int)
main =
  let (a, b) = new (({SENT});?Int;?Int) in
  fork (serve b);
  let (count, a) = receive {sent(value, "a")} in
  let (total, a) = receive a in
  (count, total)
""", f"result ({len(numbers(value))}, {sum(numbers(value))})")


TASKS = {
    1: Task("What is the answer?", "1-predict.txt", [predicted]),
    2: Task("The least trace", "2-least-trace.txt", [predicted]),
    3: Task("An answer that is written once", "3-equivalent.question", [written_once("?Int")]),
    4: Task("The dual of a choice within a choice", "4-dual.fst", [
        only("type Machine"),
        protocol("Machine", "?Int;+{Drink: !Int, Broke: &{Leave: Skip, Beg: ?Char}}"),
        accepted,
        runs("result 3"),
    ]),
    5: Task("A server that forgets what it owes", "5-forgotten-end.fst", [
        only("serve ="), accepted, add(20, 22), add(5, 6), double(11), runs("result 7"),
    ]),
    6: Task("A protocol that comes back to itself", "6-stream.fst", [
        only("sums ="), accepted, stream(0, 1, 10), stream(5, 7, 30), runs("result (3, 7)"),
    ]),
    7: Task("Whatever follows", "7-continuation.fst", [
        only("times :", "times =", "main ="), accepted, times(0, 7), times(3, 25), times(1, 4), runs("result 15"),
    ]),
    8: Task("The protocol of a tree", "8-tree.fst", [
        only("type Sent", "type Received"),
        protocol("Sent", "rec x. +{Leaf: !Int, Both: x;x;!Bool}"),
        protocol("Received", "rec x. &{Leaf: ?Int, Both: x;x;?Bool}"),
        accepted,
        runs("result 6"),
    ]),
    9: Task("Two tasks that wait for each other", "9-waiting.fst", [
        same_words, accepted, runs("result 12", "history 0#1 : !3", "history 0#2 : !4"),
    ]),
    10: Task("A question that no budget decides", "10-undecided.fst", [
        only("forward :", "type BehindOpen", "type BehindOpenOpen", "type BehindOpenShut"),
        protocol("BehindOpen", "Count;Count;Free"),
        protocol("BehindOpenOpen", "Count;Count;Count;Free"),
        protocol("BehindOpenShut", "Count;Free"),
        one_of("forward", "Free -> Free", "Count;Free -> Count;Free"),
        accepted,
    ]),
    11: Task("An answer that there may not be", "11-branches.fst", [
        only("type Client", "type Shop", "shop =", "ask ="),
        protocol("Client", "!Int;&{Price: ?Int, Unknown: Skip}"),
        protocol("Shop", "?Int;+{Price: !Int, Unknown: Skip}"),
        accepted,
        price(1, 30), price(2, 45), price(3, None), price(0, None),
        asking(2, "send 7 (select Price b)", "Costs 7"),
        asking(1, "select Unknown b", "Nothing"),
        asking(9, "send 0 (select Price b)", "Costs 0"),
        runs("result (Costs 45, Nothing)"),
    ]),
    12: Task("Sums that come back within a tree", "12-sums.fst", [
        only("sums ="),
        accepted,
        running(0, "Leaf", "Leaf", 0),
        running(5, "Node Leaf 1 Leaf", "Node Leaf 6 Leaf", 6),
        running(0, "Node (Node Leaf 1 Leaf) 10 (Node Leaf 100 Leaf)", "Node (Node Leaf 1 Leaf) 11 (Node Leaf 111 Leaf)", 111),
        running(1, "Node Leaf 3 (Node (Node Leaf 9 Leaf) 5 Leaf)", "Node Leaf 4 (Node (Node Leaf 13 Leaf) 18 Leaf)", 18),
        runs("result Node (Node Leaf 1 Leaf) 3 (Node Leaf 6 Leaf)"),
    ]),
    13: Task("A register that waits until a client has left", "13-closing.fst", [
        only("type Client", "type Server", "serve =", "visit ="),
        protocol("Client", "rec x. +{Take: ?Int;x, Leave: Close}"),
        protocol("Server", "rec x. &{Take: !Int;x, Leave: Wait}"),
        accepted,
        register(1, 2, 3), register(5, 9, 12), register(7, 0, 0),
        runs("result ((3, 5), 6)"),
    ]),
    14: Task("Work for two tasks at the same time", "14-share.fst", [
        only("difference ="), accepted, share(10, 9, 35), share(12, 11, 39), share(20, 21, 57), share(0, 3, 20),
    ]),
    15: Task("A certificate with one pair", "15-one-pair.certificate", [certificate(1)]),
    16: Task("Moves that nobody has seen", "16-buffers.fst", [
        only("play ="),
        accepted,
        game("4 5", "4 5", 1, [WAITS]),
        game("1 2", "1 2", 2, ["result (True, True)", "history 0#1 : !1 !2", "history 0#2 : !1 !2"]),
        game("1 2", "1 3", 2, ["result (False, False)"]),
        game("6 2", "7 2", 2, ["result (False, False)"]),
        game("8 9", "9 8", 2, ["result (False, False)", "history 0#1 : !9 !8"]),
    ]),
    17: Task("From paper: a mail server", "17-mail.fst", [
        only("type Server", "serve =", "main :", "main ="),
        protocol("Server", f"&{{Hello: {SERVER}}}"),
        accepted,
        mail(),
        mail(("Check", 9), ("Check", 10), ("Check", 0), ("Check", 1)),
        mail(("Mail", 1, 3), ("Mail", 12, 4), ("Mail", 5, 0)),
        mail(("Check", 4), ("Mail", 2, 1), ("Check", 99)),
    ]),
    18: Task("From paper: values within values", "18-values.fst", [
        only("type Server", "serve =", "main :", "main ="),
        protocol("Server", f"({RECEIVED});!Int;!Int"),
        accepted,
        value(None),
        value(7),
        value([]),
        value([3, None, 4]),
        value([[5, [6]], 8]),
    ]),
}
