"""What freest-lsp answers: faults, types, names, labels and mends, with positions as the protocol counts them; and how
soon."""
import os
import statistics
import time

import client
from freest_tools import program

# (the sign 𝒳 is one character, two units of UTF-16 and four bytes)
MODULE = """type C = +{Add: !Int, Neg: Skip}
f : C -> Skip
f c = let x𝒳 = 1 in let c = select Add c in send True c
g : forall a:*T. a -> a
g x = x
main : Int
main = g 5
"""
FIRST = {"start": {"line": 2, "character": 45}, "end": {"line": 2, "character": 49}}
LARGE, LONGEST = 40_000, 1.0  # bytes; seconds beside twice those of the program, where other work may keep all processors
TYPED, ENOUGH = 3, 8  # times; seconds


def tried():
    """Returns faults, what was tried in some words, and the milliseconds from a change to its diagnostics."""
    parts = [faults_of_module, completion, mends, questions_and_certificates, bad_messages]
    faults = []
    for it in parts:
        try:
            faults += it()
        except (TimeoutError, KeyError, IndexError, TypeError) as error:
            faults.append(f"{it.__name__}: {type(error).__name__}: {error}")
    more, figures = delay()
    return faults + more, f"{len(parts)} kinds of answers", figures


def differ(name, found, wanted):
    return [] if found == wanted else [f"{name}: {found!r} in place of {wanted!r}"]


def faults_of_module():
    with client.Client(MODULE) as it:
        found = it.diagnostics(2)
        faults = differ(
            "faults",
            [one["message"].split("\n")[0] for one in found],
            ["no move !Bool in !Int", "type arguments 0 wanted 1"],
        )
        faults += differ("the place of a fault", found[0]["range"], FIRST)
        faults += differ(
            "cause and cure", [line.split(":")[0] for line in found[0]["message"].split("\n")[1:]], ["why", "mend"]
        )
        faults += differ(
            "a type", it.at("hover", 2, 40)["contents"]["value"], "```freest\nc : +{Add: !Int, Neg: Skip}\n```"
        )
        faults += differ("the rest of an end", it.at("hover", 2, 55)["contents"]["value"], "```freest\nc : !Int\n```")
        faults += differ(
            "a type of an alias",
            it.at("hover", 1, 4)["contents"]["value"],
            "```freest\ntype C = +{Add: !Int, Neg: Skip}\n```",
        )
        faults += differ(
            "a definition", [one["range"]["start"] for one in it.at("definition", 2, 40)], [{"line": 2, "character": 2}]
        )
        uses = it.at("references", 6, 7, context={"includeDeclaration": False})
        faults += differ("uses", [one["range"]["start"] for one in uses], [{"line": 6, "character": 7}])
        changed = it.at("rename", 2, 55, newName="d")["changes"][it.uri]
        faults += differ(
            "a name that is changed", sorted(one["range"]["start"]["character"] for one in changed), [25, 55]
        )
        symbols = it.ask("textDocument/documentSymbol", {"textDocument": {"uri": it.uri}})
        faults += differ("symbols", [one["name"] for one in symbols], ["C", "f", "g", "main"])
        it.change({"range": at(2, 50, 2, 54), "text": "2"}, {"range": at(6, 9, 6, 9), "text": " -- 𝒳"})
        return faults + differ(
            "faults behind a change",
            [one["message"].split("\n")[0] for one in it.diagnostics(1)],
            ["type arguments 0 wanted 1"],
        )


def at(*numbers):
    return {
        "start": {"line": numbers[0], "character": numbers[1]}, "end": {"line": numbers[2], "character": numbers[3]}
    }


def completion():
    with client.Client(MODULE.replace("select Add", "select ")) as it:
        found = [one["label"] for one in it.at("completion", 2, 36)]
    with client.Client(MODULE) as it:
        names = [one["label"] for one in it.at("completion", 6, 7)]
    return differ("labels of the next move", found, ["Add", "Neg"]) + differ(
        "names in scope", [one in names for one in ("f", "g", "let", "c")], [True] * 3 + [False]
    )


def mends():
    with client.Client(MODULE) as it:
        where = {
            "textDocument": {"uri": it.uri},
            "range": at(6, 7, 6, 8),
            "context": {"diagnostics": [one for one in it.diagnostics(2) if one["range"]["start"]["line"] == 6]},
        }
        found = it.ask("textDocument/codeAction", where)
        faults = differ("titles of mends", [one["title"] for one in found], ["g @Int"])
        faults += differ(
            "the change of a mend", found[0]["edit"]["changes"][it.uri], [{"range": at(6, 8, 6, 8), "newText": " @Int"}]
        )
        return faults + differ("what a mend mends", len(found[0]["diagnostics"]), 1)


def questions_and_certificates():
    faults = []
    for uri, text, wanted in [
        ("file:///a.question", "!Int ~ ?Int", "no !Int left"), ("file:///a.question", "!Int;x ~ ?Int", "unbound x"),
        ("file:///a.proof", "!Int ~ !Int\npairs 0\nchains 1\nchain\n", "valid"), (
            "file:///a.certificate", "!Int ~ !Int\npairs 01\n", "certificate"
        ),
    ]:
        with client.Client(text, uri) as it:
            faults += differ(
                f"what is said of {text!r}", [one["message"].split("\n")[0] for one in it.diagnostics(1)], [wanted]
            )
    return faults


def bad_messages():
    """Returns faults of what is said of texts that are no messages, and of messages that say nothing; the server goes
    on."""
    with client.Client("main : Int\nmain = 5\n") as it:
        faults = differ("no fault", it.diagnostics(0), [])
        it.write(b"Content-Length: 3\r\n\r\n[1]" + b"Content-Length: 2\r\n\r\n{]" + b"No: header\r\n\r\n")
        codes = [it.wait_for(lambda one: "error" in one)["error"]["code"] for _ in range(3)]
        faults += differ("codes of bad messages", codes, [-32600, -32700, -32700])
        it.write(client.bytes_of(method=[1]) + client.bytes_of(method="textDocument/didChange", params={}) + client.bytes_of(method="textDocument/didOpen", params=[]))
        faults += differ("a method that isn't there", it.ask("no/method", {}), "there is no method no/method")
        faults += differ(
            "a file that isn't open",
            it.ask("textDocument/hover", {"textDocument": {"uri": "x"}, "position": {}}),
            "x isn't open",
        )
        return faults + differ("a place behind the text", it.at("hover", 99, 99), None)


def delay():
    """Returns faults of how soon diagnostics come in a large module, and the milliseconds: those in the middle of some
    tries."""
    part = "f{0} : !Int;?Bool -> Bool\nf{0} c =\n  let c = send {0} c in\n  let (b, d) = receive c in\n  b\n\n"
    text, number = "main : Int\nmain = 5\n", 0
    while len(text) < LARGE:
        text, number = text + part.format(number), number + 1
    times, own = [], []
    with client.Client(text) as it:
        it.diagnostics(0)
        for count in range(TYPED):
            began = time.monotonic()
            it.change({"range": at(1, 7, 1, 8), "text": str(count)})
            it.diagnostics(0)
            times.append(1000 * (time.monotonic() - began))
            began = time.monotonic()
            program.call(["check"], text)
            own.append(1000 * (time.monotonic() - began))
            if sum(times + own) > 1000 * ENOUGH:
                break
    whole, own = statistics.median(times), statistics.median(own)
    found = f"{whole:.0f} ms from a key to what is said of {len(text) // 1000} kB, of which the program takes {own:.0f}, with a load of {os.getloadavg()[0]:.1f}"
    return [f"too late: {found}"] if whole > 2 * own + 1000 * LONGEST else [], found
