"""The plain form of a bundle, which visits.c reads: for each switch the words of its program and of its rows (docs/CASES.md), then the
links and the hosts. The texts are those that `cocoon compile` prints."""

import json
import re

TOKEN = re.compile(r"\d+w\d+|\d+|[A-Za-z_][\w.]*|\+\+|[=!<>]=|&&|\|\||[-+&|^~!?:<>=(){}\[\];]")


class Control:
    """The statements of a control as words, each behind what belongs to it. `names` has the words of all that can be read or set."""

    def __init__(self, text, names):
        self.tokens, self.at, self.names = TOKEN.findall(text), 0, names

    def peek(self):
        return self.tokens[self.at] if self.at < len(self.tokens) else None

    def take(self, *wanted):
        token = self.tokens[self.at]
        if wanted and token not in wanted:
            raise ValueError(f"{token} stands where one of {wanted} should")
        self.at += 1
        return token

    def expression(self):
        token = self.take()
        if token == "(":
            words = self.bracketed()
        else:
            words = [self.names.get(token, token)]
        while self.peek() == "[":
            self.take("[")
            high, _, low = self.take(), self.take(":"), self.take()
            self.take("]")
            words.append(f"slice:{high}.{low}")
        return words

    def bracketed(self):
        """What stands behind a bracket, up to the one that closes it: an operator with its operands."""
        if self.peek() in ("~", "!"):
            operator = self.take()
            words = self.expression() + [operator]
        else:
            words = self.expression()
            operator = self.take()
            words += self.expression()
            if operator == "?":
                self.take(":")
                words += self.expression()
            words.append(operator)
        self.take(")")
        return words

    def statement(self):
        token = self.take()
        if token == "return":
            words = ["return"]
        elif token == "if":
            return self.choice()
        elif token.endswith(".apply"):
            self.take("(")
            self.take(")")
            words = ["apply:" + token[1 : -len(".apply")]]
        else:
            self.take("=")
            words = self.expression()
            if token == "verdict":
                words = ["verdict:" + words[0].removeprefix("8w")]
            else:
                words.append(token if token in ("egress_port", "group") else self.names[token].replace("m:", "set:").replace("h:", "set:"))
        self.take(";")
        return words

    def choice(self):
        self.take("(")
        words = self.expression()
        self.take(")")
        words += self.block()
        if self.peek() != "else":
            return words + ["if"]
        self.take("else")
        return words + self.block() + ["else"]

    def block(self):
        words = [self.take("{")]
        while self.peek() != "}":
            words += self.statement()
        return words + [self.take("}")]

    def all(self):
        words = []
        while self.peek():
            words += self.statement()
        return words


def parts(text, begins):
    """The inside of a declaration that begins so."""
    return re.search(re.escape(begins) + r"[^{]*\{\n(.*?)^\}", text, re.MULTILINE | re.DOTALL).group(1)


def tables(control, names):
    """The words of its tables."""
    found = re.findall(r"action a(\d+)\(bit<\d+> v\) \{ m\.(\w+) = v; \}\n  table t\d+ \{\n    key = \{(.*?) \}", control)
    for number, result, keys in found:
        kinds = re.findall(r"m\.(\w+) : (exact|ternary);", keys)
        kind = kinds[0][1] if kinds else "exact"
        yield f"{kind}:{number}:{names['m.' + result][2:]}:" + ",".join(names["m." + key][2:] for key, _ in kinds)


def statements(control, names, defaults):
    """The words of what it applies; the first assignments, of 0 to what it leaves, are those of every program."""
    lines = control[control.index("  apply {\n") :].split("\n")[1 + defaults : -2]
    return Control("\n".join(lines), names).all()


def program_words(text):
    names, words = {"port": "port", "rid": "rid"}, []
    for index, (header, inside) in enumerate(re.findall(r"^header ht_(\w+) \{\n(.*?)^\}", text, re.MULTILINE | re.DOTALL)):
        for field, (width, name) in enumerate(re.findall(r"bit<(\d+)> f_(\w+);", inside)):
            names[f"h.h_{header}.f_{name}"] = f"h:{index}.{field}"
            words.append(f"field:{name}:{width}")
        words.append(f"header:{header}")
    for index, (width, name) in enumerate(re.findall(r"bit<(\d+)> (\w+);", parts(text, "struct Meta"))):
        names[f"m.{name}"] = f"m:{index}"
        words.append(f"meta:{name}:{width}")
    ingress, egress = parts(text, "control Ing("), parts(text, "control Egr(")
    words += [*tables(ingress, names), *statements(ingress, names, 3), "egress"]
    return words + [*tables(egress, names), *statements(egress, names, 2)]


def numbers(items):
    return ",".join(str(item) for item in items)


def rows_words(rows):
    words = []
    for table in rows["tables"]:
        for row in table["rows"]:
            values, masks = ([part[which] for part in row["key"]] for which in (0, 1))
            words.append(f"row:{numbers(values)}:{numbers(masks)}:{row['value']}")
        words.append(f"rows:{table['table']}:{table['default']}")
    return words + [f"members:{number}:{numbers(members)}" for number, members in rows["groups"]]


def plain_form(folder, out):
    """The lines of the bundle of this name."""
    net = json.loads((folder / f"{out}.net.json").read_text())
    lines = []
    for number in net["switches"]:
        program = program_words((folder / f"{out}.s{number}.p4").read_text())
        rows = rows_words(json.loads((folder / f"{out}.s{number}.rows.json").read_text()))
        lines += [f"switch {number}", " ".join(program), " ".join(rows)]
    lines += [" ".join(str(part) for part in ("link", *link)) for link in net["links"]]
    lines += [" ".join(str(part) for part in ("host", *host)) for host in net["hosts"]]
    return "".join(line + "\n" for line in lines)
