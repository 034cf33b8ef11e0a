"""What the digests of the mutation baseline are of: a crate's own files, and what a crate above sees of them. CONTRIBUTING.md, "The
mutation baseline", has the rules; tests/mutants_baseline.py uses them.

A crate above sees contracts, types, constants and definitions. It sees neither bodies of functions, nor functions that aren't
public, nor lemmas: a body that breaks its contract has no proof, whatever lemmas there are. Of a public function that is no trait's
it sees nothing unless the function's name is a word of its sources or of its edits, or of what it sees besides, since otherwise
nothing calls it; nor of a constant that isn't public, unless a clause, a specification or another constant names it too; nor of a
type and its impls, unless anything besides these names it, since nobody has a value of it. Of the fields of a struct it sees
nothing if none is public and contracts see a value of another type. Of specifications it sees those that
what it sees leads to, and nothing of a crate that what it sees doesn't name. Comments count nowhere. A text that these functions
can't read counts whole. Needs no toolchain, and Python 3.8 or later.
"""
import functools
import hashlib
import os
import re
from collections import namedtuple

PARTS, EDITS = ("src", "specs", "proofs"), "must-fail"
# The proof files of one function, in a folder of its path.
OF_FUNCTION = ("Answers.antt", "Invariants.antt")
# A token of a source file: a word, a mark, a literal, or a clause: `ghost`, `requires` or `ensures` with the antt text after it.
Token = namedtuple("Token", "kind text")
WORD, MARK, LITERAL, CLAUSE = "word", "mark", "literal", "clause"
# What counts of a file: its text with a gap for each path that it imports, those paths, and the modules that it passes on, as
# pairs of a name and a path.
Content = namedtuple("Content", "text imports passed_on")
# Parts of a source file as a crate above sees it, which count if that names the function, the constant or the type, or some of the
# items. Those of a type hold functions of its impls.
Function = namedtuple("Function", "name parts")
Constant = namedtuple("Constant", "name parts")
Type = namedtuple("Type", "name parts")
Passing = namedtuple("Passing", "tokens")
GAP = "\0"


class Unreadable(Exception):
    """A text that has no tokens."""


def digest(parts):
    """Returns a digest of texts, which differs also if their bytes put together are the same."""
    found = hashlib.sha256()
    for it in parts:
        it = it if isinstance(it, bytes) else it.encode()
        found.update(b"%d:" % len(it) + it)
    return found.hexdigest()[:32]


# ---------------------------------------------------------------------------------------------------------------------
# The tokens of a source file.

LEXEME = re.compile(
    r"""(?P<space>\s+|//[^\n]*)
    |(?P<comment>/\*)
    |(?P<raw>[bc]?r(?P<hashes>\#*)")
    |(?P<literal>[bc]?"(?:[^"\\]|\\.)*"|b?'(?:[^'\\\n]|\\(?:x[0-9a-fA-F]{2}|u\{[0-9a-fA-F_]+\}|.))')
    |(?P<word>(?:r\#|')?\w+)
    |(?P<mark><<=|>>=|\.\.[.=]|\.\.|::|->|=>|&&|\|\||<<|>>|[=!<>+\-*/%^&|]=|[^"'])""",
    re.VERBOSE | re.DOTALL,
)
COMMENT_MARK = re.compile(r"/\*|\*/")
# In a clause: a quoted text, a brace, a semicolon, or what may begin a comment, of antt's or before the first brace.
CLAUSE_MARK = re.compile(r'"(?:[^"\\\n]|\\.)*"|[{};"]|--|(?<=\{)-|//|/\*')
CLAUSE_WORDS = ("ghost", "requires", "ensures")
CLOSED_BY = {"(": ")", "[": "]", "{": "}"}


def after_comment(text, place):
    """Returns where the comment ends that begins here, with those inside it."""
    depth = 0
    for it in COMMENT_MARK.finditer(text, place):
        depth += 1 if it[0] == "/*" else -1
        if depth == 0:
            return it.end()
    raise Unreadable("a comment has no end")


def after_clause(text, place):
    """Returns where the clause ends that begins here: after the brace that closes its first one, or before a semicolon."""
    depth = 0
    for it in CLAUSE_MARK.finditer(text, place):
        if it[0] == ";" and depth == 0:
            return it.start()
        if it[0] in ('"', "--", "-") or it[0] in ("//", "/*") and depth == 0:
            raise Unreadable("a clause has a comment, or a quoted text without an end")
        depth += {"{": 1, "}": -1}.get(it[0], 0)
        if it[0] == "}" and depth <= 0:
            return it.end()
    raise Unreadable("a clause has no end")


def tokens_of(text):
    """Returns the tokens of a source file, without its comments."""
    found, place = [], 0
    while place < len(text):
        it = LEXEME.match(text, place)
        if not it:
            raise Unreadable("a quote has no end")
        kind, end = it.lastgroup, it.end()
        if it["comment"]:
            end = after_comment(text, place)
        elif it["raw"]:
            end = text.find('"' + it["hashes"], it.end()) + 1 + len(it["hashes"])
            if end <= it.end():
                raise Unreadable("a raw text has no end")
            found.append(Token(LITERAL, text[place:end]))
        elif it["word"] in CLAUSE_WORDS:
            end = after_clause(text, it.end())
            found.append(Token(CLAUSE, text[place:end]))
        elif not it["space"]:
            found.append(Token(kind, it[0]))
        place = end
    return found


def ends_of(tokens):
    """Returns for the place of each opening bracket that of the bracket that closes it."""
    found, opened = {}, []
    for place, it in enumerate(tokens):
        if it.kind == MARK and it.text in CLOSED_BY:
            opened.append(place)
        elif it.kind == MARK and it.text in CLOSED_BY.values():
            if not opened or CLOSED_BY[tokens[opened[-1]].text] != it.text:
                raise Unreadable("a bracket closes none")
            found[opened.pop()] = place
    if opened:
        raise Unreadable("a bracket isn't closed")
    return found


# ---------------------------------------------------------------------------------------------------------------------
# The bodies and the items that no crate above sees.

QUALIFIERS = ("const", "async", "unsafe", "extern", "default", "final")
KINDS = ("fn", "struct", "enum", "union", "trait", "impl", "mod", "use", "static", "type", "macro_rules")
TYPES = ("struct", "enum", "union")
# The trait of what contracts see of a type.
SEEN_AS = "Model"
# A body with an item of these kinds stays.
ITEMS = ("struct", "enum", "union", "trait", "impl", "macro_rules")


def words_after_attributes(head):
    """Returns the words of an item that begins with these tokens, as they stand outside of brackets, without its attributes."""
    words, place = [it.text for it in head if it.kind != CLAUSE], 0
    while words[place : place + 1] == ["#"]:
        place += 3 if words[place + 1 : place + 2] == ["!"] else 2
    return words[place:]


def is_public(head):
    """Returns whether another crate can name an item that begins with these tokens, as they stand outside of brackets."""
    words = words_after_attributes(head)
    return words[:1] == ["pub"] and words[1:2] != ["("]


def kind_of(head):
    """Returns the kind of an item that begins with these tokens, as they stand outside of brackets, and its qualifiers."""
    words, place = words_after_attributes(head), 0
    place += words[place : place + 1] == ["pub"]
    place += words[place : place + 1] == ["("]
    qualifiers = []
    while place < len(words) and (words[place] in QUALIFIERS or words[place].startswith('"')):
        qualifiers.append(words[place])
        place += 1
    kind = words[place] if words[place : place + 1] and words[place] in KINDS else ""
    return kind or ("const" if "const" in qualifiers else ""), qualifiers


def is_hidden(head, body, qualifiers, scope):
    """Returns whether no crate above sees this body of a function: not if a check may run it, if the function is a trait's, if its
    type is that of the body, or if the body has items that count elsewhere."""
    words = [it.text for it in head]
    has_type_of_body = "->" in words and "impl" in words[words.index("->") :]
    return not ({"const", "extern"} & {*qualifiers} or "trait" in scope or has_type_of_body or {*ITEMS} & {it.text for it in body})


def own_types(tokens):
    """Returns the names of the types that no other crate can name."""
    before = [Token(MARK, ";"), *tokens]
    found = zip(before, tokens, tokens[1:])
    return {name.text for by, it, name in found if it.kind == WORD and it.text in TYPES and name.kind == WORD and by.text != "pub"}


def modelled(tokens):
    """Returns the names of the types of which contracts see a value of another type, by impls of that trait among these tokens."""
    places = [place for place, it in enumerate(tokens) if it.kind == WORD and it.text == "impl"]
    heads = [tokens[place : next((at for at in range(place, len(tokens)) if tokens[at].text == "{"), place)] for place in places]
    return {name for trait, name in map(target_of, heads) if trait == SEEN_AS}


def is_all_private(fields):
    """Returns whether nobody outside of a crate sees anything of a type but its name, if it has these fields and contracts see a
    value of another type."""
    pairs = zip(fields, [*fields[1:], Token(MARK, "")])
    return not any(it.kind == CLAUSE or it.text == "pub" and after.text != "(" for it, after in pairs)


def target_of(head):
    """Returns the last names of the trait and of the type of an impl that begins with these tokens; of no trait, an empty one."""
    words = [it.text for it in head if it.kind != CLAUSE]
    depth, parts = 0, [[""]]
    for word in words[words.index("impl") + 1 :]:
        depth += word.count("<") - word.count(">") if word in ("<", ">", "<<", ">>") else 0
        if depth == 0 and word == "for":
            parts.append([""])
        elif depth == 0 and word == "where":
            break
        elif depth == 0 and re.fullmatch(r"\w+", word):
            parts[-1].append(word)
    return parts[0][-1] if parts[1:] else "", parts[-1][-1]


def name_in(head):
    """Returns the name of the function, module, type or constant that begins with these tokens, as they stand outside of brackets."""
    words = words_after_attributes(head)
    return next((name for word, name in zip(words, words[1:]) if word in ("fn", "mod", *TYPES, "const") and name != "fn"), "")


def all_types(tokens):
    """Returns the names of the types that these tokens declare."""
    found = zip(tokens, tokens[1:])
    return {name.text for it, name in found if it.kind == WORD and it.text in TYPES and name.kind == WORD}


def hidden_parts(tokens):
    """Returns what no crate above sees: the places of the braces of bodies, and the first and last places of items, each by the
    first. Of a type that isn't public, those are its attributes and its impls, but for what contracts see of it. Then those of
    imports that count only if what is seen names them: none where a body is seen. Then what counts only if it is named: the last
    places of public functions, of modules without a body, of constants that aren't public, and of types and their impls, each with
    what takes its parts, and the last places of what is passed on."""
    ends, own, models, scope, place, start = ends_of(tokens), own_types(tokens), modelled(tokens), [], 0, 0
    declared = all_types(tokens)
    bodies, items, uses, has_seen_body = {}, {}, {}, False
    named, passing = {}, {}
    # (the tokens of an item so far, and those of them outside of brackets)
    head, outer = [], []
    while place < len(tokens):
        it = tokens[place]
        if it.kind != MARK or it.text not in ("(", "[", "{", "}", ";"):
            head.append(it)
            outer.append(it)
        elif it.text in "([":
            head += tokens[place : ends[place] + 1]
            outer.append(it)
            place = ends[place]
        elif it.text == "{":
            kind, qualifiers = kind_of(outer)
            is_whole = kind not in ("const", "static", "use", "type")
            if kind in ("mod", "impl", "trait"):
                trait, name = target_of(head) if kind == "impl" else ("", "")
                if name in own and trait != SEEN_AS:
                    items[start] = place = ends[place]
                else:
                    if kind == "impl" and (not trait or name in declared):
                        named[start] = ends[place], Type(name, [])
                    scope.append("trait impl" if trait else kind)
            else:
                end = ends[place]
                if kind == "fn" and not is_hidden(head, tokens[place:end], qualifiers, scope):
                    has_seen_body = True
                elif kind == "fn" and {"trait", "trait impl"} & {*scope}:
                    bodies[place] = end
                elif kind == "fn" and is_public(outer):
                    bodies[place] = end
                    named[start] = end, Function(name_in(outer), [])
                elif kind == "fn":
                    items[start] = end
                if kind in TYPES:
                    named[start] = end, Type(name_in(outer), [])
                if kind in TYPES and not is_public(outer):
                    items.update(attributes(tokens, ends, start))
                elif kind == "struct" and name_in(outer) in models and is_all_private(tokens[place + 1 : end]):
                    bodies[place] = end
                place = end
            if is_whole:
                head, outer, start = [], [], place + 1
        else:
            if it.text == "}":
                scope.pop()
            elif kind_of(outer)[0] in TYPES:
                named[start] = place, Type(name_in(outer), [])
                items.update({} if is_public(outer) else attributes(tokens, ends, start))
            elif kind_of(outer)[0] == "use" and it.text == ";":
                (passing if is_public(outer) else uses)[start] = place
            elif kind_of(outer)[0] == "mod" and it.text == ";":
                named[start] = place, Function(name_in(outer), [])
            elif kind_of(outer)[0] == "const" and it.text == ";" and not is_public(outer) and not {"trait", "trait impl"} & {*scope}:
                named[start] = place, Constant(name_in(outer), [])
            head, outer, start = [], [], place + 1
        place += 1
    return bodies, items, {} if has_seen_body else uses, named, passing


def attributes(tokens, ends, start):
    """Returns the first and last places of the attributes of an item that begins here, by the first."""
    found = {}
    while tokens[start].text == "#":
        found[start] = ends[start + 1]
        start = ends[start + 1] + 1
    return found


# ---------------------------------------------------------------------------------------------------------------------
# What counts of a file.

PATH = r"(?P<path>[^\s{};.]+(?:\.[^\s{};.]+)*)"
# An import: a line of antt's, or a clause `ghost use`.
IMPORT = re.compile(rf"(?P<before>\s*(?:unfoldable )?(?:pub )?use\s+|ghost\s+use\s+){PATH}(?P<rest>.*)", re.DOTALL)
# A line that passes a module on, under its own name or another. A path that begins otherwise depends on other lines.
PASSED_ON = re.compile(rf"\s*(?:unfoldable )?pub use (?=Rattle\.){PATH}(?<!\*)(?: as (?P<name>\S+))?\s*")
MODULE_LINE = re.compile(r"(pub )?mod \S+\s*")
MODULE_HEAD = re.compile(r"\s*(pub )?module\s")
# A signature of antt's, with its marks; without a mark but `pub`, the definition can be unfolded in its own module alone.
SIGNATURE = re.compile(r"\s*(?P<marks>(?:(?:pattern|unfoldable|abbrev|axiom|pub) )*)(?P<name>[^\s:(){}]+)(?: \{[^{}]*\})? :(?:\s|$)")
# A word that may be a name.
NAME = re.compile(r"[^\s(){}\[\].,;:\"\0\1]+")
RESERVED = ("data", "record", "deriving", "module", "where", "use", "mod", "open", "ruleset", "mutual", "infix", "infixl", "infixr")


def used_of(imported, text):
    """Returns how an import goes on after its path, without the names in braces that a text doesn't have, or nothing if it has none
    of them."""
    path, rest = imported["path"], imported["rest"]
    has = lambda name: all(part in text for part in name.rpartition(" as ")[2].strip().split("◌"))
    braces = re.fullmatch(r"\.\{([^{}]*)\}", rest)
    if braces:
        names = [it.strip() for it in braces[1].split(",") if has(it)]
        return f".{{{', '.join(names)}}}" if names else None
    is_of_module = not rest or re.fullmatch(r"\s+as\s+\S+", rest)
    return rest if not is_of_module or has(rest or path.rpartition(".")[2]) else None


def used_items(tokens, words):
    """Returns the words of an import of Rust's, without the names that a text doesn't have, or nothing if it has none of them."""
    after = [*tokens[1:], Token(MARK, ";")]
    ends = [it.kind == MARK and it.text in (",", "}", ";") for it in after]
    unused = [is_end and it.kind == WORD and it.text != "self" and it.text not in words for it, is_end in zip(tokens, ends)]
    is_needed = any(is_end and it.text != "}" and not out for it, is_end, out in zip(tokens, ends, unused) if it.text not in (",", ";"))
    return [it.text for it, out in zip(tokens, unused) if not out and it.text != ","] if is_needed else []


def source_parts(text, is_seen_from_above):
    """Returns the parts of a source file, as a crate above sees it, or all: texts, imports, and what counts if it is named."""
    tokens = tokens_of(text)
    bodies, items, uses, named, passing = hidden_parts(tokens) if is_seen_from_above else ({}, {}, {}, {}, {})
    whole, place = [], 0
    # (where the parts end that are being read, and these; the innermost last)
    opened = [(len(tokens), whole)]
    while place < len(tokens):
        while opened[-1][0] < place:
            opened.pop()
        if place in named:
            end, part = named[place]
            opened[-1][1].append(part)
            opened.append((end, part.parts))
        found = opened[-1][1]
        it, end = tokens[place], place
        imported = IMPORT.fullmatch(it.text) if it.kind == CLAUSE else None
        if place in items:
            end = items[place]
        elif place in uses:
            end = uses[place]
            found.append(tokens[place : end + 1])
        elif place in passing:
            end = passing[place]
            found.append(Passing(tokens[place : end + 1]))
        elif imported:
            # (with the semicolon that ends it)
            end += tokens[place + 1 : place + 2] == [Token(MARK, ";")]
            found.append(imported)
        elif place in bodies:
            found += ["{", "}"]
            end = bodies[place]
        else:
            found.append(it.text)
        place = end + 1
    return whole


def counted_of(parts, named, types):
    """Returns what counts of these parts, without the functions, constants and types that aren't named."""
    found = []
    for it in parts:
        if not isinstance(it, (Function, Constant, Type)):
            found.append(it)
        elif named is None or it.name in (types if isinstance(it, Type) else named):
            found += counted_of(it.parts, named, types)
    return found


def source_content(parts, is_seen_from_above, named=None, types=frozenset()):
    """Returns the content of a source file of these parts. named: the words by which a crate above names what counts only then;
    None if it may name all. types: the names of the types that count then."""
    found = counted_of(parts, named, types)
    texts = [it for it in found if isinstance(it, str)]
    used, words, parts, imports = "\1".join(texts), {*texts}, [], []
    for it in found:
        if isinstance(it, str):
            parts.append(it)
        elif isinstance(it, Passing):
            parts += [one.text for one in it.tokens] if named is None else used_items(it.tokens, named)
        elif isinstance(it, list):
            parts += used_items(it, words)
        else:
            rest = used_of(it, used) if is_seen_from_above else it["rest"]
            parts += [] if rest is None else [f"ghost use {GAP}{rest}"]
            imports += [] if rest is None else [it["path"]]
    # (no text has the byte that parts them)
    return Content("\1".join(parts), tuple(imports), ())


def words_in(parts):
    """Returns the words that stand in parts of a source file outside of clauses, of imports and of functions; and those of what is
    passed on under another name, since nobody above has the first one."""
    renamed = [one.text for it in parts if isinstance(it, Passing) for one in it.tokens if any(other.text == "as" for other in it.tokens)]
    of_types = set().union(*(words_in(it.parts) - {it.name} for it in parts if isinstance(it, Type)))
    return {it for it in [*parts, *renamed] if isinstance(it, str) and it.isidentifier()} | of_types


def constants_in(parts):
    """Returns the names of the constants among parts of a source file that count only if they are named, and all words in which one
    of them may be named there."""
    names, words, left = set(), set(), [(it, "") for it in parts]
    while left:
        it, own = left.pop()
        if isinstance(it, Constant):
            names.add(it.name)
        if isinstance(it, (Function, Constant, Type)):
            left += [(one, it.name if isinstance(it, Constant) else "") for one in it.parts]
        elif isinstance(it, Passing):
            words.update(one.text for one in it.tokens)
        elif isinstance(it, list):
            words.update(one.text for one in it)
        elif isinstance(it, str):
            words.update({*re.findall(r"\w+", it)} - {own})
        else:
            words.update(re.findall(r"\w+", it.group()))
    return names, words


def words_of_import(tokens):
    """Returns the words of an import of Rust's that name more than what it imports: those on the way, and all if one is renamed."""
    if any(it.text == "as" for it in tokens):
        return {it.text for it in tokens}
    return {it.text for it, after in zip(tokens, tokens[1:]) if after.text == "::"}


def declared_in(path, rest):
    """Returns the words of an import of antt's if it is one of what a source file declares."""
    return {*re.findall(r"\w+", path + rest)} if ".declared." in path + "." else set()


@functools.lru_cache(maxsize=None)
def declared_words(name, data):
    """Returns the words of the imports in an antt file of what source files declare; all its words, if it can't be read."""
    if read_of(name, data, False) is None:
        return {*re.findall(r"\w+", data.decode(errors="replace"))}
    imported = [IMPORT.fullmatch(it.rstrip()) for it in data.decode().split("\n")]
    return set().union(*(declared_in(it["path"], it["rest"]) for it in imported if it))


def types_in(parts, own=""):
    """Returns the names of the types among parts of a source file, and all words by which one of them may be named there, outside of
    its own parts."""
    names, words = set(), set()
    for it in parts:
        if isinstance(it, (Function, Constant, Type)):
            its_names, its_words = types_in(it.parts, it.name if isinstance(it, Type) else own)
            names |= its_names | ({it.name} if isinstance(it, Type) else set())
            words |= its_words
        elif isinstance(it, list):
            words |= words_of_import(it)
        elif isinstance(it, str):
            words |= {*re.findall(r"\w+", it)} - {own}
        elif not isinstance(it, Passing):
            words |= declared_in(it["path"], it["rest"])
    return names, words


def is_comment(line):
    return re.match(r"\s*--(\s|$)", line) is not None


def definitions_in(lines, named):
    """Returns the lines of a proof file without its lemmas, which are all that is opaque, but for the statements of these names, or
    of all if named is None."""
    found, place, opaque, is_opaque = [], 0, set(), False
    if not lines:
        return found
    indent = lambda line: len(line) - len(line.lstrip())
    level = indent(lines[0])
    while place < len(lines):
        end = place + 1
        while end < len(lines) and indent(lines[end]) > level:
            end += 1
        block, signature = lines[place:end], SIGNATURE.match(lines[place])
        word = block[0].split()[0]
        if indent(block[0]) < level:
            raise Unreadable("a line stands further left than the first")
        if MODULE_HEAD.match(block[0]):
            heading = next((at for at, it in enumerate(block, 1) if re.search(r"(^|\s)where$", it)), len(block))
            inside = definitions_in(block[heading:], named)
            found += block[:heading] + inside if inside else []
            is_opaque = False
        elif signature and signature["name"] not in RESERVED:
            is_opaque = signature["marks"] in ("", "pub ")
            (opaque.add if is_opaque else opaque.discard)(signature["name"])
            found += block if not is_opaque or named is None or signature["name"] in named else []
        elif not (word in opaque or word == "unfolding" and is_opaque):
            found += block
        place = end
    return found


def antt_content(text, name, is_seen_from_above, named):
    """Returns the content of an antt file; as a crate above sees it, without lemmas if it is a proof file."""
    if "{-" in text:
        raise Unreadable("a comment may go over several lines")
    lines = [it.rstrip() for it in text.split("\n")]
    lines = [it for it in lines if it and not is_comment(it)]
    passed_on = [PASSED_ON.fullmatch(it) for it in lines]
    passed_on = [(it["name"] or it["path"].rpartition(".")[2], it["path"]) for it in passed_on if it]
    if os.path.basename(name) == "Lib.antt":
        lines = [it for it in lines if not MODULE_LINE.fullmatch(it) and not PASSED_ON.fullmatch(it)]
    is_proof = is_seen_from_above and name.startswith("proofs/")
    if is_proof:
        lines = definitions_in(lines, named)
    found, imports, used = [], [], "\n".join(it for it in lines if not IMPORT.fullmatch(it))
    for it in lines:
        imported = IMPORT.fullmatch(it)
        rest = imported and imported["rest"]
        if is_proof and imported and "pub" not in imported["before"]:
            rest = used_of(imported, used)
            if rest is None:
                continue
        imports += [imported["path"]] if imported else []
        found.append(f"{imported['before']}{GAP}{rest}" if imported else it)
    return Content("\n".join(found), tuple(imports), tuple(passed_on))


@functools.lru_cache(maxsize=None)
def read_of(name, data, is_seen_from_above, named=frozenset()):
    """Returns what a file with this name and these bytes has: the parts of a source file, the content of an antt file, or nothing if
    it is of another kind or can't be read. named: as for `content_of`."""
    try:
        text = data.decode()
        if GAP in text or "\1" in text:
            return None
        if name.endswith(".rt"):
            return source_parts(text, is_seen_from_above)
        if name.endswith(".antt"):
            return antt_content(text, name, is_seen_from_above, named)
    except (UnicodeDecodeError, Unreadable, RecursionError):
        pass
    return None


def content_of(name, data, is_seen_from_above, named=frozenset(), words=None, types=frozenset()):
    """Returns what counts of a file with this name and these bytes, for its own crate or for one above: all of it, if it can't be
    read. named: of a proof file that is seen from above the names of the lemmas that count, or None if all do. words: of a source
    file the words of the crate above, or None if it may name all. types: the names of types that count for it then."""
    read = read_of(name, data, is_seen_from_above, named)
    if read is None:
        return Content(data, (), ())
    return source_content(read, is_seen_from_above, words, types) if isinstance(read, list) else read


# ---------------------------------------------------------------------------------------------------------------------
# What counts of a crate.


def files_in(folder, parts):
    """Returns the bytes of the files in these parts of a folder, by name; of hidden ones and of out/ none are read."""
    found = {}
    for part in parts:
        for at, folders, names in os.walk(f"{folder}/{part}"):
            folders[:] = sorted(it for it in folders if it != "out" and not it.startswith("."))
            for name in sorted(it for it in names if not it.startswith(".")):
                with open(f"{at}/{name}", "rb") as file:
                    found[os.path.relpath(f"{at}/{name}", folder)] = file.read()
    return found


def module_of(crate_name, name):
    """Returns the path of the module that an antt file is; that of another file is no module's."""
    parts = os.path.splitext(name)[0].split("/")
    return ".".join(["Rattle", crate_name, *(parts[:-1] if parts[-1] == "Lib" else parts)])


def text_in(content):
    """Returns the text of a content, also of one that is no text."""
    return content.text if isinstance(content.text, str) else content.text.decode(errors="replace")


class Tree:
    """The files of a crate and of those below it, as they stand."""

    def __init__(self, crate):
        self.crate, self.files = crate.name, {it.name: files_in(it.folder, PARTS) for it in [crate, *crate.below()]}
        # (the modules that are passed on, by their paths there)
        self.passed_on = {}
        for crate_name, files in self.files.items():
            for name, data in files.items():
                module = module_of(crate_name, name)
                self.passed_on.update((f"{module}.{it}", path) for it, path in content_of(name, data, False).passed_on)
        self.edits, counted = files_in(crate.folder, (EDITS,)), None
        # (what is only in a crate that doesn't count names nothing)
        while counted != {*self.files}:
            self.files = {it: files for it, files in self.files.items() if counted is None or it in counted}
            self.words, self.types, types = self.all_words(), None, self.types_in_sources()
            while self.types != types:
                self.types = types
                # (what specifications and sources name, and the antt files that they lead to)
                self.named, self.reached = self.reached_files()
                types |= self.types_in_antt()
            self.words |= self.constants()
            counted = self.counted_crates()

    def all_words(self):
        """Returns the words of the crate's sources and edits, and of what it sees of the sources below whatever it names."""
        found = {word for data in self.edits.values() for word in re.findall(r"\w+", data.decode(errors="replace"))}
        for crate_name, files in self.files.items():
            for name, data in files.items():
                read = read_of(name, data, crate_name != self.crate) if name.startswith("src/") else []
                found |= {*re.findall(r"\w+", data.decode(errors="replace"))} if read is None else words_in(read)
        return frozenset(found)

    def sources_below(self):
        """Returns the parts of the sources of the crates below, as the crate sees them."""
        for crate_name, files in self.files.items():
            for name, data in files.items():
                read = read_of(name, data, True) if name.startswith("src/") and crate_name != self.crate else None
                if isinstance(read, list):
                    yield read

    def types_in_sources(self):
        """Returns the names of the types below that the crate names in its sources and edits, or sources below."""
        names, words = set(), {word for data in self.edits.values() for word in re.findall(r"\w+", data.decode(errors="replace"))}
        for name, data in self.files[self.crate].items():
            words |= {*re.findall(r"\w+", data.decode(errors="replace"))} if name.startswith("src/") else set()
        for read in self.sources_below():
            its_names, its_words = types_in(read)
            names |= its_names
            words |= its_words
        self.all_types = frozenset(names)
        return frozenset(names & words)

    def types_in_antt(self):
        """Returns the names of the types below that antt files import which are the crate's own or count for it."""
        words = set()
        for crate_name, files in self.files.items():
            for name, data in files.items():
                if name.endswith(".antt") and (crate_name == self.crate or module_of(crate_name, name) in self.reached):
                    words |= declared_words(name, data)
        return self.all_types & words

    def constants(self):
        """Returns the names of the constants below that count only if they are named, and are."""
        names, words = set(), set()
        for crate_name, files in self.files.items():
            for name, data in files.items():
                read = read_of(name, data, True) if name.startswith("src/") and crate_name != self.crate else None
                if isinstance(read, list):
                    its_names, its_words = constants_in(read)
                    names |= its_names
                    words |= its_words
                elif crate_name == self.crate or not name.endswith(".antt"):
                    words.update(re.findall(r"\w+", data.decode(errors="replace")))
                elif module_of(crate_name, name) in self.reached:
                    words.update(re.findall(r"\w+", text_in(self.content(crate_name, name, self.named))))
        return frozenset(names & words)

    def counted_crates(self):
        """Returns the crate, those below that it names, and those that anything names of what it sees of these."""
        found, left = set(), [self.crate]
        while left:
            name = left.pop()
            found.add(name)
            seen = [*self.edits.values(), *self.own_parts()] if name == self.crate else self.parts_below(name)
            words = {word for it in seen for word in re.findall(r"\w+", it if isinstance(it, str) else it.decode(errors="replace"))}
            left += [it for it in self.files if it in words and it not in found and it not in left]
        return found

    def content(self, crate_name, name, named=frozenset()):
        """Returns what counts of a file, as the crate sees it. named: the statements of lemmas that count."""
        is_below = crate_name != self.crate
        is_seen_from_above = is_below or name.startswith("proofs/")
        return content_of(name, self.files[crate_name][name], is_seen_from_above, named, self.words if is_below else None, self.types)

    def reached_files(self):
        """Returns the words of the specifications and sources that count for the crate, and the antt files to which these lead by their
        imports: of its own, all specifications and sources lead on; of the crates below, the sources. The specifications come first,
        since their words decide which statements of lemmas count."""
        modules, first, words, reached = {}, [], set(), set()
        for crate_name, files in self.files.items():
            for name in files:
                is_own = crate_name == self.crate
                if name.startswith("proofs/") or name.endswith(".antt") and not is_own:
                    modules[module_of(crate_name, name)] = crate_name, name
                else:
                    content = self.content(crate_name, name)
                    words |= {*NAME.findall(text_in(content))}
                    first += content.imports
        is_proof = lambda path: modules[path][1].startswith("proofs/")

        def reach(left):
            """Adds the files to which imports lead, by way of specifications, and returns those of them that are proof files."""
            proofs = []
            while left:
                for path in self.ways(left.pop()):
                    if path not in modules or path in reached:
                        continue
                    reached.add(path)
                    if is_proof(path):
                        proofs.append(path)
                        continue
                    content = self.content(*modules[path])
                    words.update(NAME.findall(text_in(content)))
                    left += content.imports
            return proofs

        proofs = reach(first)
        named = frozenset(words)
        while proofs:
            proofs += reach([*self.content(*modules[proofs.pop()], named).imports])
        return named, reached

    def ways(self, path):
        """Returns a path of a module as its own crate writes it, and those of the modules around it."""
        parts = self.resolved(path).split(".")
        return [".".join(parts[:end]) for end in range(len(parts), 0, -1)]

    def resolved(self, path):
        """Returns the path of a module as its own crate writes it, whichever crate passes it on."""
        seen = set()
        while path not in seen:
            seen.add(path)
            parts = path.split(".")
            for end in range(len(parts), 0, -1):
                module = ".".join(parts[:end])
                if module in self.passed_on:
                    path = ".".join([self.passed_on[module], *parts[end:]])
                    break
        return path

    def own_parts(self):
        """Returns what counts of the crate itself, as texts: name by name, what the file has and what it imports."""
        return self.texts([(name, content_of(name, data, False)) for name, data in self.files[self.crate].items()])

    def parts_below(self, crate_name):
        """Returns the same of a crate below."""
        found = []
        for name in self.files[crate_name]:
            if not name.endswith(".antt"):
                found.append((name, self.content(crate_name, name)))
            elif module_of(crate_name, name) in self.reached:
                found.append((name, self.content(crate_name, name, self.named if name.startswith("proofs/") else frozenset())))
        return self.texts(found)

    def parts_for_proofs(self):
        """Returns what proofs in the crates above see of the crate, as texts: what callers see, and lemmas."""
        found = []
        for name, data in self.files[self.crate].items():
            is_proof = name.startswith("proofs/")
            if not (is_proof and os.path.basename(name) in OF_FUNCTION):
                found.append((name, content_of(name, data, True, None if is_proof else frozenset())))
        return self.texts(found)

    def texts(self, contents):
        """Returns contents by name as texts."""
        return [it for name, content in contents if content.text for it in (name, content.text, *map(self.resolved, content.imports), "")]


def places_of(edit, files):
    """Returns how often each text that an edit replaces occurs in its file: once, if it can be applied."""
    found, data = [], b""
    for line in edit.split(b"\n"):
        word, _, text = line.partition(b": ")
        if word == b"file":
            data = files.get(text.strip().decode(errors="replace"), b"")
        elif word == b"old":
            found.append(str(data.count(text)))
    return found


def own_digest(crate):
    """Returns the digest of a crate's own files and of its edits."""
    tree = Tree(crate)
    parts = tree.own_parts()
    for name, data in tree.edits.items():
        parts += [name, data, *places_of(data, tree.files[crate.name])]
    return digest(parts)


def views_below(crate):
    """Returns for each crate below that counts, by name, the digest of what is seen of it from above."""
    tree = Tree(crate)
    return {it: digest(tree.parts_below(it)) for it in tree.files if it != crate.name}


def view_of(crate):
    """Returns the digest of what proofs in the crates above see of a crate: what its callers see, and its lemmas."""
    return digest(Tree(crate).parts_for_proofs())
