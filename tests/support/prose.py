"""Pages of Markdown as prose: their sentences, and words that they don't use since the trade has others."""

import re

# What is no prose: parts that are made of the sources, blocks of code, comments; and lines of tables, of indented code,
# of headings and of pictures.
MADE = re.compile(r"<!-- made by .*?-->\n.*?<!-- end -->\n", re.DOTALL)
FENCED = re.compile(r"^ *```.*?^ *```$", re.DOTALL | re.MULTILINE)
COMMENT = re.compile(r"<!--.*?-->", re.DOTALL)
LINES_APART = re.compile(r"^(?: {4}|\t|\||#+ |!\[).*$", re.MULTILINE)

ITEM = re.compile(r"^(?:[-*]|\d+\.) +")
LINK = re.compile(r"!?\[([^\]]*)\]\([^)]*\)")
CODE = re.compile(r"`[^`]*`")
# A sentence ends before a blank and what begins the next one; a word in backticks is a sign that stands for it.
SIGN = "\0"
END = re.compile(rf"(?<=[.!?])[)*]* +(?=[\"'(*\[]*[A-Z{SIGN}])")
WORD = re.compile(rf"[\w{SIGN}][\w{SIGN}'’.,/+-]*")

# A word that a line uses where it has the longer one too.
TAG, WITH_TAG = r"tags?", "authentication"
# The words that pages don't use, outside of code, each with what stands in its place.
RETIRED = {
    r"liars?|lies|lied": "faulty (Byzantine) member, protocol violation",
    r"brings?|brought|bringing": "deliver, receive, transmit",
    TAG: "authentication tag",
    r"forgotten|forgetting": "rolled back, lost state",
    r"comparing": "rollback check",
    r"(?:is|are|was|were) met|mistrusted|given up": "connected, failed authentication, abandoned",
    r"dial(?:s|ed|ing)?": "connect",
    r"seal(?:s|ed|ing)?": "encode",
    r"keepers?": "durability gate",
    r"chunks?": "record block",
    r"news": "peer events",
    r"starv(?:e|es|ed|ing)": "run out of memory",
    r"stubbed": "abstracted by its contract",
    r"so many|such (?:a|an) one|it has none|the own": "the noun again",
    r"anew": "again",
    r"behind": "after",
    r"(?<=, )(?:of which|whose|in which|of whom)": "two sentences",
    r"(?:is|are|was) (?:told|had|given again)": "prints, returns, repeats",
    r"goes on|go on": "continue",
}
# Where a page quotes what a program prints, or names what it doesn't use.
QUOTED = re.compile(r"\"[^\"]*\"|\*[^*]+\*")


def blocks(text):
    """The paragraphs and items of lists of a page, each as one line."""
    for part in (MADE, FENCED, COMMENT, LINES_APART):
        text = part.sub("\n", text)
    for block in re.split(r"\n\s*\n", text):
        item = []
        for line in block.splitlines():
            if ITEM.match(line.strip()) and item:
                yield " ".join(item)
                item = []
            item.append(ITEM.sub("", line.strip()))
        if any(item):
            yield " ".join(item)


def sentences(text):
    """The sentences of a page."""
    for block in blocks(text):
        for sentence in END.split(CODE.sub(SIGN, LINK.sub(r"\1", block))):
            if re.search(r"[a-z]", sentence):
                yield sentence.strip()


def count_words(sentence):
    return len(WORD.findall(sentence))


def retired_words(text):
    """The words of a page, tables included, that aren't used any more, each with what stands in its place."""
    for part in (MADE, FENCED, COMMENT):
        text = part.sub("\n", text)
    text = re.sub(r"^(?: {4}|\t).*$", "", text, flags=re.MULTILINE)
    text = QUOTED.sub(SIGN, CODE.sub(SIGN, LINK.sub(r"\1", text.replace("**", ""))))
    for line in text.splitlines():
        for word, other in RETIRED.items():
            if word == TAG and WITH_TAG in line.lower():
                continue
            for found in re.finditer(rf"(?<!\w)(?:{word})\b", line, re.IGNORECASE):
                yield f"{found[0]} ({other}): {line[max(0, found.start() - 40) : found.end() + 30]}"
