"""Go sources as they are shown: lines, tokens, and which braces belong to which statement.

This is no parser. It reads sources that ctxvet has read, and where it is wrong, a way is drawn wrongly."""
import os
import re

TOKEN = re.compile(
    r"""(?P<comment>//[^\n]*|/\*.*?\*/)|(?P<string>"(?:\\.|[^"\\\n])*"|`[^`]*`|'(?:\\.|[^'\\\n])+')"""
    r"""|(?P<name>[^\W\d]\w*)|(?P<number>\.?\d[\w.]*)|(?P<newline>\n)"""
    r"""|(?P<sign><<=|>>=|&\^=|\.\.\.|&&|\|\||<-|\+\+|--|==|!=|<=|>=|:=|[-+*/%&|^]=|<<|>>|&\^|[^\s\w])""",
    re.S,
)
KEYWORDS = set(
    "break case chan const continue default defer else fallthrough for func go goto if import interface map package"
    " range return select struct switch type var".split()
)
# After these a line's end is a semicolon, and after names, numbers and strings.
ENDS = {"break", "continue", "fallthrough", "return", "++", "--", ")", "]", "}"}
# Larger files aren't judged either.
LARGEST = 1 << 20


class Token:
    def __init__(self, text, line, column, kind):
        self.text, self.line, self.column, self.kind = text, line, column, kind

    def is_sign(self, among):
        return self.kind == "sign" and self.text in among

    def ends_a_statement(self):
        """Whether the end of its line is a semicolon."""
        is_word = self.kind in ("name", "number", "string") and self.text not in KEYWORDS
        return is_word or self.text in ENDS


class Source:
    """A file. Lines count from 1, columns of tokens are characters from 0. `partners` has of each bracket the other
    one, `blocks` of a statement's keyword its brace, and `closed` of a closing brace that keyword; all are numbers of
    tokens."""

    known = {}

    @classmethod
    def of(cls, name, root):
        key = (name, root)
        if key not in cls.known:
            cls.known[key] = cls(os.path.join(root, name))
        return cls.known[key]

    def __init__(self, path):
        try:
            with open(path, "rb") as file:
                text = file.read().decode("utf-8", "replace").replace("\r\n", "\n")
        except OSError:
            text = ""
        self.lines = text.split("\n") if text else []
        self.tokens, self.partners, self.blocks, self.closed = [], {}, {}, {}
        if len(text) <= LARGEST:
            self.cut(text)
            self.pair()
            self.shape()
        self.places = {(one.line, one.column): k for k, one in enumerate(self.tokens) if one.kind != "end"}

    def cut(self, text):
        line, start = 1, 0
        for found in TOKEN.finditer(text):
            kind, word, column = found.lastgroup, found.group(), found.start() - start
            if kind == "newline" or kind == "comment" and "\n" in word:
                if self.tokens and self.tokens[-1].ends_a_statement():
                    self.tokens.append(Token(";", line, column, "end"))
            if kind not in ("newline", "comment"):
                self.tokens.append(Token(word, line, column, kind))
            if "\n" in word:
                line += word.count("\n")
                start = found.start() + word.rindex("\n") + 1

    def pair(self):
        opened = []
        for k, token in enumerate(self.tokens):
            if token.is_sign("([{"):
                opened.append(k)
            elif token.is_sign(")]}") and opened:
                other = opened.pop()
                self.partners[k], self.partners[other] = other, k

    def shape(self):
        for k, token in enumerate(self.tokens):
            brace = None
            if token.text in ("if", "for", "switch", "select"):
                brace = self.brace(k)[0]
            elif token.text == "func":
                brace = self.body(k)
            elif token.text == "else" and k + 1 < len(self.tokens) and self.tokens[k + 1].is_sign("{"):
                self.closed[self.partners.get(k + 1)] = k
            if brace in self.partners:
                self.blocks[k], self.closed[self.partners[brace]] = brace, k

    def brace(self, k):
        """The `{` of the header that begins at this token, and the semicolons of the header."""
        semicolons, k = [], k + 1
        while k < len(self.tokens):
            token = self.tokens[k]
            if token.is_sign("(["):
                k = self.partners.get(k, k)
            elif token.text == "func":
                k = self.partners.get(self.body(k), k)
            elif token.text in ("struct", "interface"):
                k = self.partners.get(k + 1, k)
            elif token.is_sign("{"):
                return k, semicolons
            elif token.text == ";":
                semicolons.append(k)
            k += 1
        return None, semicolons

    def body(self, k):
        """The `{` of the function at this `func`; None where that is a type."""
        k += 1
        while k < len(self.tokens):
            token = self.tokens[k]
            if token.is_sign("(["):
                k = self.partners.get(k, k)
            elif token.text in ("struct", "interface"):
                k = self.partners.get(k + 1, k)
            elif token.is_sign("{"):
                return k
            elif token.kind != "name" and token.text not in (".", "*", "<-") or token.text in ("return", "case"):
                return None
            k += 1
        return None

    def column(self, line, column):
        """Characters from 0, of bytes from 1."""
        text = self.lines[line - 1] if 0 < line <= len(self.lines) else ""
        return len(text.encode()[: column - 1].decode("utf-8", "ignore"))

    def token(self, line, column):
        """The number of the token at a line and a column in bytes."""
        return self.places.get((line, self.column(line, column)))

    def functions(self, k):
        """The functions around a token, outermost first: each by its `func`."""
        found = (f for f, brace in sorted(self.blocks.items()) if f <= k <= self.partners[brace])
        return [f for f in found if self.tokens[f].text == "func"]

    def around(self, k, words):
        """The innermost statement around a token that begins with one of these words."""
        found = (f for f, brace in self.blocks.items() if brace < k < self.partners[brace])
        return max((f for f in found if self.tokens[f].text in words), default=None)

    def labelled(self, label):
        for k in self.blocks:
            before = [token.text for token in self.tokens[max(0, k - 3) : k] if token.kind != "end"]
            if before[-2:] == [label, ":"]:
                return k
        return None

    def end(self, k):
        """The token that ends the statement which this token is in."""
        while k < len(self.tokens):
            token = self.tokens[k]
            if token.is_sign("([{") and k in self.partners:
                k = self.partners[k]
            elif token.text in (";", "}"):
                break
            k += 1
        return k

    def words(self, first, last):
        """The text of the tokens from first to before last, in one line."""
        text = ""
        for k in range(first, min(last, len(self.tokens))):
            token, before = self.tokens[k], self.tokens[k - 1]
            apart = before.line == token.line and token.column > before.column + len(before.text)
            apart = apart or before.line != token.line and before.text not in "([{." and token.text not in ")]}.,;"
            if token.kind != "end":
                text += (" " if k > first and apart else "") + token.text
        return re.sub(r"\s+", " ", text)
