"""The usual slips behind `syntax` and `bad character`: what those write who come from another language, and what stands
here.

A slip is found by a pattern, tried on a line of this form, in which `»` stands in front of the token that is refused:

    equation: main = fork » send 1 a

In front of the colon stands the kind of the declaration, as freest_tools.source has it, or `question`. Behind it may
stand ` indented`, where a name at the front of the line is followed by the refused `:` or `=`, or ` cut`, where the
declaration ends too soon and the next line begins none. Nothing behind `»` says that the declaration, or the text, ends
there.
"""
import collections
import functools
import re
import unicodedata

from . import grammar, source

MOST_AROUND = 60  # tokens on either side that a pattern sees

# `why` says what is wrong, and `mend` what to write.
Slip = collections.namedtuple("Slip", "why mend")
# What is known of a refused token: the declaration, what may stand there (or None), its tokens in front and behind, and
# the line above.
Refused = collections.namedtuple("Refused", "part expected before behind line")

# The patterns have `L`, `U` and `N` for a lower name, an upper name and a number.
TERM = "expr or and cmp sum prod unary app atom"
NAMES = {"L": r"[^\WA-Z\d][\w']*", "U": r"[A-Z][\w']*", "N": r"[0-9]+"}
CALL = r"(?:send|receive|select|close|wait|new|fork|let|if|case|match|not|\\)"
TYPE = r"(?:Int|Bool|Char|Skip|Close|Wait|!|\?|&|\+ \{|rec)"
COMPARED = r"(?:==|/=|<|<=|>|>=)"
WORD = "(?:" + "|".join(sorted(source.WORDS)) + ")"
ARMS = "the arms stand in braces, with `,` between them: `{A x -> .., B y -> ..}`"
PATTERN = "a parameter is a name, and nothing is taken apart in front of `=`"

# Each row: the symbols of which one may stand there, or nothing; the pattern; why; mend. The first row that fits
# counts. `\1` and so on are what the pattern's groups found.
ROWS = [
    # Comments.
    ("", r"» \{ -|\( » \* ", "this is no comment here", "begin each line of a comment with `--`"),
    # Declarations.
    ("", r"\bwhere (?:.* )?L »", "there is no `where`", "put `let NAME = .. in` in front of the term, or declare a global of its own"),
    ("in", r"^\w+ indented:.* » =|; L » =", "each `let` binds one name and has its `in`", "write `let x = .. in let y = .. in ..`"),
    ("", r"^\w+ indented:.* (L)(?: L)* » [:=]", "this line begins with a space, so it goes on with the declaration above", "begin it with `\\1`, at the front of the line"),
    ("", r"^\w+ indented: .*» (L)(?: L)* [:=]", "this line begins with a space, so it goes on with the declaration above", "begin it with `\\1`, at the front of the line"),
    ("", r"^\w+ indented: » (\S+)", "a declaration begins at the front of a line, without a space", "take away the spaces in front of `\\1`"),
    ("", r"^\w+ cut:.* »$", "the declaration above ends too soon: a line that goes on with it begins with a space", "put a space in front of this line"),
    ("", r"^equation: (import|module|open|use) »", "there is no `\\1`: a module stands alone", "take the line away, and declare what is needed here"),
    ("", r"^equation: (class|instance|newtype|fn|def|val|var|const|proc|struct|enum|fun|function|protocol|session) »", "no declaration begins with `\\1`",
     "write `f : Int -> Int` and `f x = ..` for a function, `data` for a type of values, `type` for a protocol"),
    ("", r"^other: » let\b", "a global is declared without `let`", "write its signature, `f : Int -> Int`, and its equation, `f x = ..`"),
    ("", r"^other: » (W) [:=]", "`\\1` is a reserved word, and no name", "take another name"),
    ("", r"^other: » U", "the name of a global begins with a small letter", "write the name small, or `data` or `type` in front of a type"),
    ("", r"^other: » ", "no declaration begins so: it begins with a name, `data` or `type`", "put a space in front of a line that goes on with the declaration above"),
    ("", r"^(?!question).*» (?:data|type)\b", "a declaration begins at the front of a line, without a space", "take away the spaces in front of it"),
    ("", r"^(?!question).* » ~", "a module has no question in it", "put the two types with `~` between them into a file of their own, and ask `equiv`"),
    # Signatures.
    ("", r": » :", "a type stands behind one colon", "write `:` for `::`"),
    ("", r"^equation: L » ,", "a signature or an equation is of one name", "write one for each name"),
    ("", r"\bforall L » [.,]|\bforall (?:.* , )?L » (?:[.,]|L|->|= >)", "each variable behind `forall` has its kind", "write `forall a:1S.` for a protocol, `forall a:*T.` for values that are used at will; `,` stands between variables"),
    ("", r"\bforall » \(", "the variables of a `forall` stand without parentheses", "write `forall a:1S, b:*T.`"),
    ("kind S", r"\bforall .*» ", "a kind is `1S`, `*S`, `1T` or `*T`: `1` is used once and `*` at will, `S` is a protocol and `T` any type", "write one of these: `SL` of FreeST is `1S`, `SU` is `*S`, `TL` is `1T` and `TU` is `*T`"),
    (".", r"\bforall [^.]*» ", "behind the variables of a `forall` stands a point", "write `forall a:1S. T`"),
    ("type seqtype tatom base", r"» forall", "`forall` stands at the front of a signature alone", "put all variables there, behind the colon"),
    ("", r"^signature: [^»]*» = [^>]", "a signature and its equation are two declarations", "write the equation in a line of its own: `f x = ..`"),
    # Data types and aliases.
    ("", r"^(?:type|data): (?:type|data) U » L", "a type has no parameters", "declare a type for each use, such as `data IntList = Nil | Cons Int IntList`"),
    ("", r"^other: (type|data) » L", "the name of a type begins with a capital letter", "write it so"),
    ("", r"^type: type U » :", "an alias has no kind", "write `type T = ..`"),
    ("", r"^type: type U = U (?:.* )?» (?:\||U|Int|Bool|Char|L)|^type: type U = (?:U )?» \|", "`type` names a type, and constructors are declared by `data`; no type has arguments", "write `data D = A Int | B`"),
    ("", r"^data: .* » \{", "fields have no names", "write the types of the fields alone: `data D = D Int Bool`"),
    ("", r"^data: .*\| » L|^data: data U = » L", "a constructor begins with a capital letter", "write it so"),
    ("maker", r"» (?:Int|Bool|Char|\(|[!?&])", "a data type has constructors", "write a constructor in front: `data D = D Int`; or `type` for a name of a type"),
    ("", r"^data: .* » ,", "between constructors stands `|`", "write `data D = A | B`"),
    ("", r"^data: .* » (?:->|1 ->|:)|^data: data U » ", "a data type lists its constructors behind `=`, each with the types of its fields", "write `data D = A Int | B`"),
    # Types.
    ("", r"\b(dualof|dual|Dual|DualOf) » ", "there is no `\\1`", "write the dual out: `?` for `!`, `&` for `+`, `Wait` for `Close`, and the other way round; `new S` gives both ends"),
    ("", r"(?:^|\W)(?:μ|µ|mu\b|fix\b|Rec\b)\w* » ", "a recursive type begins with `rec`", "write `rec x. !Int; x`"),
    ("", r"\brec » U", "the variable of a `rec` begins with a small letter", "write `rec x. !Int; x`"),
    ("", r"\brec L » :", "the variable of a `rec` has no kind", "write `rec x. !Int; x`"),
    ("", r"\brec L » ", "behind the variable of a `rec` stands a point", "write `rec x. !Int; x`"),
    ("base )", r"[!?] (?:\( )?» ", "a message carries `Int`, `Bool`, `Char` or `()` alone", "send the parts one after the other, `!Int;!Bool` for a pair; send data by a choice; and pass an end of a channel as an argument"),
    ("TYPE", r"\\ L : [^»]*» \.", "behind the type of what a function takes stands `->`", "write `\\\\x:Int -> e`"),
    ("TYPE", r"» \.", "between the parts of a protocol stands `;`", "write `!Int;S` for `!Int.S`"),
    ("alt", r"\{ » \}", "a choice has at least one label", "write a label with its type: `+{A: Skip}`"),
    ("alt", r", » \}", "behind the last branch stands no comma", "take the comma away"),
    ("alt", r"[{,] » (L)", "a label begins with a capital letter", "write `+{A: Skip}`"),
    (":", r"[{,] U » ", "behind a label stands `:`, and then its type", "write `+{A: Skip, B: !Int}`; `Skip` is the type on which nothing is left to do"),
    ("TYPE", r"[+&] \{ .*; U » :|[+&] \{ .*» \|", "between branches stands `,`", "write `+{A: S, B: R}`"),
    ("", r"[+&] \{ (?:.* )?» (?:->|1 ->)", "a branch of a choice is a protocol, and no function", "pass a function as an argument"),
    ("TYPE", r"» - o", "the arrow of a function that is applied once is `1->`", "write `T 1-> U`"),
    ("TYPE", r"» \* ->", "the arrow of a function that is applied at will is `->`", "write `T -> U`"),
    ("TYPE", r"» = >", "the arrow of a function is `->`, and a type has no context", "write `T -> U`"),
    ("tatom seqtype type", r"; » ", "behind `;` a type has to follow", "take the `;` away"),
    ("TYPE", r"\bU » (?:U|L|\(|Int|Bool|Char)", "a type has no arguments", "declare a type for each use; or put `;` between two parts of a protocol"),
    ("TYPE", r"» (?:T|L|U|\()", "between two parts of a protocol stands `;`", "write `!Int;?Bool`"),
    (")", r"» ,", "a pair has two parts", "put a pair into the pair: `(a, (b, c))`"),
    # Questions.
    ("~", r"» (?:= =|=|==|/=|<|->)", "between the two types of a question stands `~`", "write `!Int ~ !Int`"),
    ("~", r"»$", "a question has two types with `~` between them", "write the second one: `!Int ~ !Int`"),
    ("", r"^question: » (?:data|type)", "a question has no declarations", "write the types out, with `rec` where a protocol comes back to itself"),
    ("", r"^question: .*~.* » ~", "a question has two types", "ask one question at a time"),
    # The front of an equation.
    ("=", r"^equation: [^=]*» (?:N|True|False|')", PATTERN, "write one equation with `if`: `f x = if x == 0 then .. else ..`"),
    ("=", r"^equation: [^=]*» \( L ,", PATTERN, "write `f p = let (x, y) = p in ..`"),
    ("=", r"^equation: [^=]*» \( L :", "the types of parameters stand in the signature", "write `f : Int -> Int` above, and `f x = ..`"),
    ("=", r"^equation: [^=]*» (?:\(|U)", PATTERN, "write one equation with `case`: `f x = case x of {A -> .., B y -> ..}`"),
    ("=", r"^equation: [^=]*» \|", "there are no guards", "write `f x = if .. then .. else ..`"),
    ("=", r"^equation: [^=]*» (?:->|1 ->|: )", "the type of a global stands in its signature, and a body behind `=`", "write `f : Int -> Int` and `f x = ..`"),
    ("=", r"^equation: [^=]*» \{", "the body of a global stands behind `=`, without braces", "write `f x = ..`"),
    ("=", r"^equation: [^=]*» (?:O)", "an operator can't be declared", "declare a function with a name"),
    # Bindings.
    ("", r"< » -", "there is no `<-`", "write `let x = e in ..`, or `let (x, c) = receive c in ..`"),
    ("", r"\blet » rec", "a `let` isn't recursive", "declare a global of its own, with a signature"),
    ("", r"\blet mut »", "nothing can be changed", "write `let x = e in ..`, and a new `let` for a new value"),
    ("", r"\blet L » :", "a `let` has no type: it follows from the term", "write `let x = e in ..`"),
    ("", r"\blet L » ,", "a pair is taken apart in parentheses", "write `let (x, y) = e in ..`"),
    ("", r"\blet L » (?:L|\()", "a `let` binds a name without parameters", "write `let f = \\\\x:Int -> e in ..`, or declare a global"),
    ("", r"\blet \( » \)", "`()` is taken away by `;`", "write `e; ..` for `let () = e in ..`"),
    ("", r"\blet \( L » \)", "parentheses behind `let` take a pair apart", "write `let x = e in ..`"),
    ("", r"\blet \( (?:L , )?» \(", "a `let` takes one pair apart", "write a `let` for the inner pair: `let (x, p) = e in let (y, z) = p in ..`"),
    ("", r"\blet (?:\( (?:L , )?)?» U", "a `let` takes no constructor apart, and a name begins with a small letter", "write `case e of {A x -> ..}`"),
    # Functions.
    ("", r"\\ L » (?:->|\.|1 ->|,|\))", "the name behind `\\\\` has its type", "write `\\\\x:Int -> e`"),
    ("", r"\\ » \(", "the name behind `\\\\` stands without parentheses", "write `\\\\x:Int -> e`, or `\\\\p:(Int, Bool) -> let (x, y) = p in e`"),
    ("", r"\\ L » L", "a function takes one argument, whose type stands with it", "write `\\\\x:Int -> \\\\y:Int -> e`"),
    ("", r"\\ L : .*-> » T", "the type of a function stands in parentheses behind `\\\\f:`", "write `\\\\f:(Int -> Int) -> e`"),
    ("", r"(?:\b(?:fun|fn|function|lambda)\b|λ\w*).* » (?:->|\.|= >|:)", "a function begins with `\\\\`", "write `\\\\x:Int -> e`"),
    # Arms.
    ("{", r"\b(?:of|with) » ", ARMS[: ARMS.index(":")], "write `case e of {A x -> .., B y -> ..}`, `match c with {A c -> .., B c -> ..}`"),
    ("of", r"» (?:\{|with)", "behind what `case` looks at stands `of`", "write `case e of {A x -> ..}`; a label is received by `match c with {A c -> ..}`"),
    ("with", r"» (?:\{|of)", "behind what `match` looks at stands `with`", "write `match c with {A c -> ..}`; data is taken apart by `case e of {A x -> ..}`"),
    ("carm marm", r", » \}", "behind the last arm stands no comma", "take the comma away"),
    ("carm marm", r"\{ » \}", "there is at least one arm", "write an arm for each constructor or label"),
    ("carm marm", r"[{,] » (?:N|True|False|')", "`case` looks at data types alone", "write `if x == 0 then .. else ..`"),
    ("carm marm", r"[{,] » \(", "an arm takes no pair apart", "write `let (x, y) = p in ..`"),
    ("carm marm", r"[{|,] » \|", ARMS[: ARMS.index(":")], "write `{A x -> .., B y -> ..}`"),
    ("carm marm", r"[{,] » L", "no arm stands for the rest: each constructor and each label has an arm of its own", "write an arm for each, which begins with its name: `A x -> ..`"),
    ("lname", r"[{,] U » ->", "an arm of `match` has a name for the end that is left; data is taken apart by `case`", "write `match c with {A c -> ..}`, or `case e of {A -> ..}`"),
    ("->", r"[{,] U (?:L )*» (?:\(|U|N|True|False|')", "an arm has a name for each field, and no pattern within it", "take the field apart by a `case` within the arm"),
    ("->", r"[{,] U L » L", "an arm of `match` has one name, for the end that is left", "receive values behind it: `A c -> let (x, c) = receive c in ..`"),
    ("->", r"[{,] U (?:L )*» ", "behind the names of an arm stands `->`", "write `{A x -> .., B y -> ..}`"),
    ("}", r"; U(?: L)* » ->|» \|(?! \|)", "between arms stands `,`", "write `{A x -> .., B y -> ..}`"),
    ("}", r"(U)(?: L)* » ->", "between arms stands `,`", "write `,` in front of `\\1`"),
    # Words that want one name, or a term in parentheses.
    ("atom", r"\b(fork|close|wait|receive|select U) » C", "behind `\\1` stands one name, or a term in parentheses", "write parentheses: `fork (send 1 a)`, `close (send 1 c)`"),
    ("atom", r"\bsend \S+ » C", "the end behind `send` is one name, or a term in parentheses", "write `send 5 (select A c)`"),
    ("atom", r"\bsend » C", "what is sent is one name, one value, or a term in parentheses", "write `send (f x) c`"),
    ("atom", r"\bsend (?:\S+|\( .* \)) » O", "what is sent stands in parentheses where it is longer than one name", "write `send (n + 1) c`"),
    ("", r"\bsend (?:L|U|N|True|False) (?:L|U|N|True|False) » (?:L|U|N|\()", "`send` takes a value and an end", "write parentheses where one of them is longer than one name: `send (f x) c`"),
    ("uname", r"\bselect » (L) (U)", "the label stands in front of the end", "write `select \\2 \\1`"),
    ("uname", r"\bselect » L", "a label begins with a capital letter, and stands in front of the end", "write `select A c`"),
    ("", r"\bnew (?:.* )?; » T|\bnew » rec", "the type behind `new` stands in parentheses where it has several parts", "write `new (!Int;?Int)`"),
    ("", r"@ (?:.* )?; » T|@ » rec", "the type behind `@` stands in parentheses where it has several parts", "write `f @(!Int;?Int)`"),
    # Terms.
    (TERM, r"» - (\S+)", "`-` stands between two numbers, and no number is negative by itself", "write `0 - \\1`, in parentheses where it is an argument: `f (0 - \\1)`"),
    ("", r"N » \. ", "there are whole numbers alone", "write a number without a point"),
    ("", r"(L|\)) » \. ", "there is no point in a term: neither methods, nor fields, nor composition", "write `send 5 c` for `c.send(5)`, `f (g x)` for `f . g`, and a `case` for a field"),
    ("", r"» ! =", "unequal is written `/=`", "write `x /= y`"),
    ("", r"» = <|< » >|== » =|» = !|» = /", "comparisons are `==`, `/=`, `<`, `<=`, `>` and `>=`", "write one of these"),
    (TERM, r"» !", "a negation is written `not`", "write `not x`"),
    ("", r"» ! ", "a value is sent by `send`", "write `send 5 c`, which gives the end that is left: `let c = send 5 c in ..`"),
    ("", r"» \?", "a value is received by `receive`, and a condition is an `if`", "write `let (x, c) = receive c in ..`, or `if .. then .. else ..`"),
    ("", r"» &", "both are written `&&`", "write `x && y`"),
    (TERM, r"» \|", "a function begins with `\\\\`", "write `\\\\x:Int -> e`"),
    ("", r"» \|", "one of both is written `||`", "write `x || y`"),
    ("", r"K .*» K", "comparisons don't chain", "write `a < b && b < c`"),
    ("then", r"» \{", "the branches of an `if` stand behind `then` and `else`, without braces", "write `if .. then .. else ..`"),
    ("", r"» \{", "there are no blocks in braces", "write parentheses"),
    ("==", r"» =", "`=` stands in a declaration and in a `let` alone", "write `==` for a comparison, and `let x = .. in` for a name"),
    (TERM, r"; »(?: |$)", "behind `;` another term has to follow: its value is that of the whole", "take the last `;` away"),
    ("", r"\W » :", "a term has no type written beside it; there are no lists but those that `data` declares", "write the type into the signature, and `Cons x l` for a list"),
    ("", r"» :", "a term has no type written beside it; there are no lists but those that `data` declares", "write the type into the signature, and `Cons x l` for a list"),
    (TERM, r"» (Int|Bool|Char|Skip|Close|Wait)\b", "`\\1` is a type, and no term", "write a value; `close c` and `wait c` end a protocol, and `f @Int` gives a function its type"),
    ("lname", r"» (W)(?: |$)", "`\\1` is a reserved word, and no name", "take another name"),
    ("lname", r"» U", "a name that is bound begins with a small letter", "write it so"),
    ("uname", r"» L", "this name begins with a capital letter", "write it so"),
]
# What is said where a token is missing, by that token.
MISSING = {
    "else": Slip("each `if` has an `else`, since it stands for a value", "write `if .. then .. else ..`"),
    "then": Slip("behind the condition of an `if` stands `then`", "write `if .. then .. else ..`"),
    "in": Slip("each `let` has an `in`, and behind it the term in which the name is in scope", "write `let x = .. in ..`"),
    "of": Slip("behind what `case` looks at stands `of`", "write `case e of {A x -> ..}`"),
    "with": Slip("behind what `match` looks at stands `with`", "write `match c with {A c -> ..}`"),
    ")": Slip("a parenthesis is open", "write `)` where it ends"),
    "}": Slip("a brace is open", "write `}` where it ends, and `,` between branches or arms"),
}
CLOSING = {
    ")": Slip("no parenthesis is open here", "take the `)` away, or write its `(`"),
    "}": Slip("no brace is open here", "take the `}` away, or write its `{`"),
    "in": Slip("no `let` waits for an `in` here", "write `let x = .. in ..`"),
    "then": Slip("no `if` waits for a `then` here", "write `if .. then .. else ..`"),
    "else": Slip("no `if` waits for an `else` here", "write `if .. then .. else ..`"),
    "of": Slip("no `case` waits for an `of` here", "write `case e of {A x -> ..}`"),
    "with": Slip("no `match` waits for a `with` here", "write `match c with {A c -> ..}`"),
}
# What is said of characters that no token has.
BAD = {
    '"': Slip("there are no strings", "write a character as `'a'`, or a data type of characters: `data Word = Empty | Then Char Word`"),
    "'": Slip("a character stands alone between quotes, or as one of `'\\n'`, `'\\t'`, `'\\\\'`, `'\\''`", "write one character between two quotes"),
    "[": Slip("there are no lists but those that `data` declares", "write `data List = Nil | Cons Int List`"),
    "]": Slip("there are no lists but those that `data` declares", "write `data List = Nil | Cons Int List`"),
    "#": Slip("a comment begins with `--`", "write `--` for `#`"),
    "$": Slip("there is no `$`", "write parentheses: `f (g x)` for `f $ g x`"),
    "`": Slip("a function stands in front of its arguments", "write `f x y` for an `f` between `x` and `y`"),
    "%": Slip("there is no remainder, and no `%1 ->`", "count by subtraction; write `1->` for the arrow of a function that is applied once"),
    "^": Slip("there are no powers", "multiply by `*`"),
    "/": Slip("there is no division, and a comment begins with `--`", "write `--` for `//`, and `/=` for unequal"),
    "∀": Slip("there is no such sign", "write `forall a:1S.`, with a kind for each variable"),
    "⊸": Slip("there is no such sign", "write `1->` for the arrow of a function that is applied once"),
    "⊗": Slip("there is no such sign", "write a pair as `(T, U)`"),
    "⊕": Slip("there is no such sign", "write `+{A: S, B: R}` for a choice that is made here"),
    **dict.fromkeys("→⟶⟹⇒↦", Slip("there is no such sign", "write `->`")),
    **dict.fromkeys("≠", Slip("there is no such sign", "write `/=`")),
    **dict.fromkeys("≤⩽", Slip("there is no such sign", "write `<=`")),
    **dict.fromkeys("≥⩾", Slip("there is no such sign", "write `>=`")),
    **dict.fromkeys("∧", Slip("there is no such sign", "write `&&`")),
    **dict.fromkeys("∨", Slip("there is no such sign", "write `||`")),
    **dict.fromkeys("¬", Slip("there is no such sign", "write `not`")),
    **dict.fromkeys("≡≅≃∼≈⇔", Slip("there is no such sign", "write `~` between the two types of a question")),
    **dict.fromkeys("×·", Slip("there is no such sign", "write `*` for a product of numbers, `(T, U)` for a pair, and `;` between the parts of a protocol")),
    **dict.fromkeys("–—−", Slip("this is no `-` of the keyboard", "write `-`, and `--` in front of a comment")),
    **dict.fromkeys("“”„«»", Slip("there are no strings", "write a character as `'a'`")),
    **dict.fromkeys("‘’´", Slip("this is no `'` of the keyboard", "write `'`")),
    "…": Slip("there is no such sign", "write what belongs here"),
    "\ufeff": Slip("an invisible mark (BOM) stands in front of the text", "save the file as UTF-8 without a BOM"),
}


@functools.lru_cache(maxsize=None)
def row_pattern(pattern):
    """Returns the expression of a row, with what its capital letters stand for."""
    letters = {**NAMES, "C": CALL, "T": TYPE, "K": COMPARED, "W": WORD, "O": r"(?:\+|-|\*|&&|\|\||" + COMPARED[3:]}
    return re.compile(re.sub(r"(?<![A-Za-z\\])[LUNCTKWO](?![a-z])", lambda found: f"(?:{letters[found[0]]})", pattern))


def refused(text, offset, of_question=False):
    """Returns what is known of a token that `syntax` refuses."""
    parts = [source.Declaration("question", None, 0, text)] if of_question else source.declarations(text)
    here = max((index for index, part in enumerate(parts) if part.start <= offset), default=None)
    if here is None:
        return None
    part, is_cut = parts[here], False
    found = tokens_of(part)
    start = "question" if of_question else "decl"
    if here and found[0].start == offset:
        above = tokens_of(parts[here - 1])
        expected = grammar.expected(above, start)
        if expected and "end" not in expected.symbols:
            is_cut = part.kind == "other" or part.kind == "equation" and "=" not in [token.text for token in found]
            line = shown(parts[here - 1].kind + " cut" * is_cut, above, [])
            return Refused(parts[here - 1], expected, above, [], line)
    before = [token for token in found if token.start < offset]
    behind = [token for token in found if token.start >= offset]
    return Refused(part, grammar.expected(before, start), before, behind, shown(part.kind + indented(text, before, behind), before, behind))


def tokens_of(part):
    return [token._replace(start=token.start + part.start, end=token.end + part.start) for token in source.tokens(part.text)]


def indented(text, before, behind):
    """Returns ` indented` where a line with spaces in front reads as a declaration, and its front, up to `:` or `=`, is
    refused."""
    if not behind:
        return ""
    line = text.rfind("\n", 0, behind[0].start) + 1
    front = [token for token in before if token.start >= line]
    words = (front + behind)[: 1 + next((at for at, token in enumerate(front + behind) if token.kind != "lower"), 0)]
    reads_so = len(front) < len(words) > 1 and words[-1].text in (":", "=") and words[0].start > line
    return " indented" if reads_so or not before and behind[0].start > line else ""


def shown(kind, before, behind):
    """Returns the line that the patterns are tried on."""
    front = ["..."] * (len(before) > MOST_AROUND) + [token.text.replace("»", "?") for token in before[-MOST_AROUND:]]
    return " ".join([f"{kind}:", *front, "»", *(token.text.replace("»", "?") for token in behind[:MOST_AROUND])])


def slip(text, fault, command="check"):
    """Returns the Slip that this fault of a text seems to be, or None; and what could stand at its place."""
    if fault.phrase == "bad character":
        return bad(text, fault.offset), []
    known = refused(text, fault.offset, command != "check") if fault.phrase == "syntax" else None
    if not known or not known.expected:
        return None, []
    symbols = known.expected.symbols
    for wanted, pattern, why, mend in ROWS:
        found = (not wanted or not symbols.isdisjoint(wanted.split())) and row_pattern(pattern).search(known.line)
        if found:
            return Slip(found.expand(why), found.expand(mend)), known.expected.says
    return left_open(text, known), known.expected.says


def left_open(text, known):
    """Returns what is said where the text ends, or something is closed, and something else is still open; or where
    nothing is open."""
    word = known.behind[0].text if known.behind else ""
    if word and word not in CLOSING and word != ",":
        return None
    for wanted, begin in known.expected.open:
        if wanted in MISSING:
            opened = known.before[begin]
            line, column = source.place_of(text, opened.start)
            return MISSING[wanted]._replace(why=f"{MISSING[wanted].why}: that of the `{opened.text}` at {line}:{column}")
    return CLOSING.get(word, Slip("the declaration ends too soon", "write what is missing") if not word else None)


def bad(text, offset):
    """Returns what is said of a character that no token has."""
    sign = text[offset : offset + 1]
    alike = unicodedata.normalize("NFKC", sign)
    if sign in BAD:
        return BAD[sign]
    if len(alike) == 1 and alike != sign and (alike.isascii() or alike in BAD):
        return Slip(f"this is no `{alike}` of the keyboard, though it looks like one" if alike.strip() else "this is no space of the keyboard", "write it anew")
    name = unicodedata.name(sign, f"U+{ord(sign):04X}") if sign else "nothing"
    return Slip(f"no token has the character {name.lower() if sign.isprintable() else name}", "take it away; a character of a text stands between quotes, as `'a'`")
