"""Writes commands as ledger text, each in a spelling of its own: every form, blank, comment, heading and line end of
docs/FORMATS.md, 'Ledger text', may come.
"""

import model

BLANKS = ("", "", " ", " ", "  ", "\t", " \t ")
INDENTS = ("  ", "  ", " ", "\t", "    ", "\t ")
COMMENTS = (";", "; a comment", ';"', "; 5 USD {1 EUR}", ";* é \\ \r x", ";;")
SKIPPED = ("", " ", "\t", "; alone", "  ; indented", "* a heading", '* "not closed', "*", "** {{{ # ~", " \t ;")


class Token(str):
    """The text of a token; `kind` is word, number, date, text or mark."""

    def __new__(cls, kind, text):
        token = super().__new__(cls, text)
        token.kind = kind
        return token


def number_of(rng, mantissa):
    """A number text of this mantissa."""
    text = model.number_text(mantissa)
    if rng.random() < 0.7:
        return text
    sign = "-" if mantissa < 0 or (mantissa == 0 and rng.random() < 0.3) else rng.choice(("", "+"))
    whole, _, decimals = text.lstrip("-").partition(".")
    whole = "0" * rng.choice((0, 0, 1, 5)) + whole
    whole = whole[0] + "".join((rng.random() < 0.2) * "," + digit for digit in whole[1:])
    decimals += "0" * rng.choice((0, 0, 1, 2, 9))
    point = "." if decimals or rng.random() < 0.2 else ""
    return sign + whole + point + decimals


def date_of(rng, day):
    if rng.random() < 0.8:
        return model.day_text(day)
    parts = [f"{part:02}" if rng.random() < 0.5 else str(part) for part in day[1:]]
    return f"{day[0]:04}{rng.choice('-/')}{parts[0]}{rng.choice('-/')}{parts[1]}"


class Speller:
    def __init__(self, rng):
        self.rng = rng

    # Tokens.

    def word(self, text):
        return Token("word", text)

    def number(self, mantissa):
        return Token("number", number_of(self.rng, mantissa))

    def date(self, day):
        return Token("date", date_of(self.rng, day))

    def text(self, text):
        return Token("text", '"' + text.replace("\\", "\\\\").replace('"', '\\"') + '"')

    def mark(self, text):
        return Token("mark", text)

    # Commands: the tokens of each line.

    def lines(self, command):
        day = self.date(command.day)
        if isinstance(command, model.Opening):
            line = [day, self.word("open"), self.word(command.account)]
            for nth, currency in enumerate(command.currencies):
                if nth:
                    line.append(self.mark(","))
                line.append(self.word(currency))
            if command.method != "STRICT" or self.rng.random() < 0.3:
                line.append(self.text(command.method))
            return [line]
        if isinstance(command, model.Closing):
            return [[day, self.word("close"), self.word(command.account)]]
        if isinstance(command, model.Declaring):
            return [[day, self.word("commodity"), self.word(command.commodity)]]
        if isinstance(command, model.Quoting):
            rate = self.number(command.rate)
            return [[day, self.word("price"), self.word(command.base), rate, self.word(command.quote)]]
        flag = self.mark(command.flag)
        if command.flag == "*" and self.rng.random() < 0.2:
            flag = self.word("txn")
        notes = [self.text(note) for note in (command.payee, command.narration) if note is not None]
        return [[day, flag, *notes], *map(self.posting, command.postings)]

    def posting(self, posting):
        line = [self.word(posting.account)]
        if posting.amount is not None:
            units, commodity, cost, price = posting.amount
            line += [self.number(units), self.word(commodity)]
            if cost is not None:
                line += self.cost(cost)
            if price is not None:
                line += [self.mark("@@" if price.whole else "@"), self.number(price.amount), self.word(price.currency)]
        return line

    def cost(self, cost):
        parts = []
        if cost.number is not None and cost.currency is not None:
            parts.append([self.number(cost.number), self.word(cost.currency)])
        elif cost.number is not None:
            parts.append([self.number(cost.number)])
        elif cost.currency is not None:
            parts.append([self.word(cost.currency)])
        if cost.day is not None:
            parts.append([self.date(cost.day)])
        if cost.label is not None:
            parts.append([self.text(cost.label)])
        self.rng.shuffle(parts)
        line = [self.mark("{{" if cost.whole else "{")]
        for nth, part in enumerate(parts):
            if nth:
                line.append(self.mark(","))
            line += part
        return line + [self.mark("}}" if cost.whole else "}")]

    # Lines.

    def join(self, tokens):
        """A line of these tokens, without indentation and comment."""
        line = ""
        for nth, token in enumerate(tokens):
            blank = self.rng.choice(BLANKS) if nth else ""
            if not blank and nth and must_part(tokens[nth - 1], token):
                blank = " "
            if token == "," and line[-1:].isdigit() and tokens[nth - 1].kind == "number":
                blank = blank or " "  # a comma directly between digits would belong to the number
            line += blank + token
        return line + self.rng.choice(BLANKS) + (self.rng.choice(COMMENTS) if self.rng.random() < 0.1 else "")

    def ledger(self, commands):
        """The text of these commands, as bytes."""
        lines = []
        self.skipped(lines)
        for command in commands:
            first, *postings = self.lines(command)
            lines.append(self.join(first))
            for posting in postings:
                self.skipped(lines)
                lines.append(self.rng.choice(INDENTS) + self.join(posting))
            self.skipped(lines)
        crlf = self.rng.choice((0, 0, 0.2, 1))
        text = "".join(line + ("\r\n" if self.rng.random() < crlf else "\n") for line in lines)
        if self.rng.random() < 0.1:
            text = text[:-1]
        if self.rng.random() < 0.1:
            text = "\ufeff" + text
        return text.encode()

    def skipped(self, lines):
        while self.rng.random() < 0.08:
            lines.append(self.rng.choice(SKIPPED))


def must_part(left, right):
    """Whether these two tokens, one directly behind the other, would be cut otherwise."""
    return left.kind == "word" and (right.kind in ("word", "date") or (right.kind == "number" and right[0] != "+"))
