#!/usr/bin/env python3
"""grammar_table.py FILE: compares the rules of the statement grammar as crates/grammar_spec/specs/Statements.antt has
them with those that FILE states in a block of its own, rule by rule and as trees. The block is the fenced one whose
first rule is `Module`; a rule is `Name = ..`, with `/` between alternatives, `?`, `*`, `&[..]`, `^`, quoted words, and
parts in parentheses that say in words what they ask. What counts as open, where `in` is no operator and which string
literal is a request are words of the text beside such a block, and so are left out of the comparison.
Ends with status 0 where all rules are the same."""
import os
import re
import sys

HERE = os.path.dirname(os.path.abspath(__file__))
TABLE = os.path.join(HERE, '..', 'crates', 'grammar_spec', 'specs', 'Statements.antt')

# the names that the block has in short
LONGER = {'Mod': 'Modifier', 'P': 'Condition'}
TESTS = ['Ident', 'Name', 'Private', 'Number', 'Text', 'Regex', 'TemplateWhole', 'TemplateHead', 'TemplateMiddle',
         'TemplateTail', 'AssignOp', 'BinOp', 'Comma']
# what a block asks in words, by its words alone, and the guard that asks it here
GUARDS = {
    'import before neither ( nor .': 'ImportDeclaration',
    "',' or ']'": 'BeforeCommaOrSquare',
    "Name before ',' '=' or '}'": 'Shorthand',
    'async, then function on its line': 'AsyncFunction',
    "static before '{'": 'StaticBlock',
    'next but one is none of ( , ; : = }, and on the line of an async': 'Modifies',
    "Ident before ':'": 'Label',
    "'}'": 'BeforeCurly',
    'arrow': 'Arrow',
    'async, then arrow on its line': 'AsyncArrow',
    "Private before 'in'": 'PrivateIn',
    "new not before '.'": 'NewOperator',
    'end of text': 'EndOfText',
    'a line end before the next token': 'NewLine',
    'without the operator in': None,
}


def sequence(parts):
    """Sequences are right-nested, and one of one part is that part."""
    flat = []
    for part in parts:
        flat += part[1:] if part[0] == 'then' else [part]
    return flat[0] if len(flat) == 1 else ('then', *flat)


def choice(parts):
    flat = []
    for part in parts:
        flat += part[1:] if part[0] == 'or' else [part]
    return flat[0] if len(flat) == 1 else ('or', *flat)


# ---- the block

def in_words(text):
    text = ' '.join(text.split())
    if text not in GUARDS:
        text = text.replace("'", '')
    if text not in GUARDS:
        sys.exit(f'a part in words that is not known: {text}')
    return GUARDS[text]


def block_tokens(text):
    found, at = [], 0
    while at < len(text):
        if text[at].isspace():
            at += 1
        elif text.startswith('&[', at):
            # a bracket in it may be a quoted one
            end = at + 2
            while text[end] != ']' or text[end - 1:end + 2] == "']'":
                end += 1
            found.append(('ahead', in_words(text[at + 2:end])))
            at = end + 1
        elif text[at] == "'":
            end = text.index("'", at + 1)
            found.append(('word', text[at + 1:end]))
            at = end + 1
        elif re.match(r'\((end of text|a line end|without)', text[at:]):
            end = text.index(')', at)
            found.append(('ahead', in_words(text[at + 1:end])))
            at = end + 1
        elif text[at] in '()/?*^':
            found.append((text[at], None))
            at += 1
        else:
            name = re.match(r'[A-Za-z]+', text[at:])
            if not name:
                sys.exit(f'cannot read: {text[at:at + 40]}')
            found.append(('name', name.group()))
            at += name.end()
    return found


class Block:
    def __init__(self, text, lists):
        self.tokens, self.at, self.lists = block_tokens(text), 0, lists

    def kind(self):
        return self.tokens[self.at][0] if self.at < len(self.tokens) else 'end'

    def choice(self):
        parts = [self.sequence()]
        while self.kind() == '/':
            self.at += 1
            parts.append(self.sequence())
        return choice(parts)

    def sequence(self):
        parts = []
        while self.kind() not in ('/', ')', 'end'):
            part = self.part()
            if part:
                parts.append(part)
        return sequence(parts)

    def part(self):
        kind, value = self.tokens[self.at]
        self.at += 1
        if kind == 'word':
            found = ('quoted', value)
        elif kind == '^':
            found = ('ahead', 'SameLine')
        elif kind == 'ahead':
            return ('ahead', value) if value else None
        elif kind == '(':
            found = self.choice()
            self.at += 1
        elif kind == 'name' and self.kind() == '(' and value in self.lists:
            self.at += 1
            inner = self.choice()
            self.at += 1
            found = fill(self.lists[value], inner)
        elif kind == 'name' and value in TESTS:
            found = ('one', value)
        else:
            found = ('rule', LONGER.get(value, value))
        while self.kind() in ('?', '*'):
            found = ('maybe' if self.kind() == '?' else 'many', found)
            self.at += 1
        return found


def fill(form, inner):
    """A list's form with its item in the place of `X`."""
    if form == ('rule', 'X'):
        return inner
    parts = [fill(part, inner) if isinstance(part, tuple) else part for part in form[1:]]
    if form[0] == 'then':
        return sequence(parts)
    if form[0] == 'or':
        return choice(parts)
    return (form[0], *parts)


def read_block(path):
    text = open(path, encoding='utf-8').read()
    fences = text.split('```')
    blocks = [part for part in fences[1::2] if part.lstrip().startswith('Module ')]
    if len(blocks) != 1:
        sys.exit(f'{path}: {len(blocks)} blocks whose first rule is Module')
    block = re.sub(r"Comma: a ',' before no closing bracket", '', blocks[0])
    heads = list(re.finditer(r'(?:^|(?<=\s))([A-Z][A-Za-z]*)(\(X\))?\s+= ', block, re.M))
    rules, lists = [], {}
    for here, further in zip(heads, heads[1:] + [None]):
        body = block[here.end():further.start() if further else len(block)]
        if here.group(2):
            lists[here.group(1)] = Block(body, {}).choice()
        else:
            rules.append((LONGER.get(here.group(1), here.group(1)), body))
    return {name: Block(body, lists).choice() for name, body in rules}


# ---- the table

WORDS = {'ident': 'Ident', 'name': 'Name', 'private': 'Private', 'number': 'Number', 'text': 'Text'}


class Table:
    """Reads a form of the table: `▸` binds more than `∣`, and a call of a former binds most."""

    def __init__(self, text):
        self.tokens, self.at = re.findall(r'"[^"]*"|[▸∣()]|[A-Za-z_.]+', text), 0

    def next(self):
        return self.tokens[self.at] if self.at < len(self.tokens) else ''

    def choice(self):
        parts = [self.sequence()]
        while self.next() == '∣':
            self.at += 1
            parts.append(self.sequence())
        return choice(parts)

    def sequence(self):
        parts = [self.part()]
        while self.next() == '▸':
            self.at += 1
            parts.append(self.part())
        return sequence(parts)

    def part(self):
        word = self.next()
        self.at += 1
        if word == '(':
            found = self.choice()
            self.at += 1
            return found
        if word == 'q':
            return ('quoted', self.plain().strip('"'))
        if word in ('rule', 'one', 'ahead'):
            return (word, self.plain().split('.')[-1])
        if word in WORDS:
            return ('one', WORDS[word])
        if word == 'same_line':
            return ('ahead', 'SameLine')
        if word in ('nested', 'headed', 'asks'):
            return self.part()
        if word in ('maybe', 'many'):
            return (word, self.part())
        if word == 'list':
            item = self.part()
            comma = ('one', 'Comma')
            more = ('many', sequence([comma, item]))
            return ('maybe', sequence([item, more, ('maybe', ('quoted', ','))]))
        if word == 'places':
            item = self.part()
            return ('many', choice([('quoted', ','), sequence([item, ('ahead', 'BeforeCommaOrSquare')])]))
        sys.exit(f'{TABLE}: {word}')

    def plain(self):
        self.at += 1
        return self.tokens[self.at - 1]


def read_table():
    text = open(TABLE, encoding='utf-8').read()
    found = re.split(r'^body ([A-Z]\w*) =', text, flags=re.M)
    return {name: Table(body).choice() for name, body in zip(found[1::2], found[2::2])}


def main():
    if len(sys.argv) != 2:
        sys.exit(__doc__)
    stated, table = read_block(sys.argv[1]), read_table()
    other = [name for name in stated if table.get(name) != stated[name]]
    other += [name for name in table if name not in stated]
    for name in other:
        print(f'{name}\n    stated {stated.get(name)}\n    table  {table.get(name)}')
    print(f'{len(table) - len(other)} rules are the same, {len(other)} differ')
    sys.exit(1 if other else 0)


main()
