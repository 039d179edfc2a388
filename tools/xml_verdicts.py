"""Compares verdicts on documents: ours by `bench_documents`, the peer's by `xmllint --noout`.

Some documents are written here, in classes: in one class both agree, in each other class they differ as
docs/rules/trees.md says. The rest are these with random changes; where the verdicts on one of them differ,
it has to be of a class that explains it. The script ends with 1 where a difference has no explanation.
"""

import collections
import os
import random
import re
import subprocess
import sys
from concurrent.futures import ThreadPoolExecutor

OURS = os.environ.get("BENCH_DOCUMENTS", "crates/bench_documents/out/bench_documents")
CHANGES = 3000

GOOD = [
    b"<a/>",
    b"<a></a >\n",
    b" <a\tb='1' c = \"2\"/>",
    b"\xef\xbb\xbf<a/>",
    b"<?xml version='1.0'?><a/>",
    b"<?xml version=\"1.0\" encoding='utf-8' standalone=\"no\" ?>\r\n<a/>",
    b"<?xml version='1.0' encoding='UTF-8'?><!-- b --><?c d?><a/><!----><?e?>",
    b"<a>&amp;&lt;&gt;&quot;&apos;&#65;&#x42;&#xe9;&#x10FFFD;</a>",
    b"<a>x<b/>y<b>z</b><![CDATA[<&]]]]><![CDATA[>]]></a>",
    b"<a>]]x]&#93;&gt;]]]</a>",
    b"<_a.b-c9><d_ e-='&#13;&#10;'>\r\n\r</d_></_a.b-c9>",
    "<a b='\u00e9\u20ac'>\u00e9\u20ac\U00010348</a>".encode(),
    b"<a><!-- - - b--></a>",
    b"<a><?p x??></a>",
    b"<a xmlns='u' xmlns:p='v' p:b='1' b='2'><p:c/></a>",
    b"<osil><instanceData><variables><var mult='2'/></variables></instanceData></osil>",
]

BAD = [
    b"",
    b" ",
    b"<a>",
    b"<a/><b/>",
    b"<a/>x",
    b"x<a/>",
    b"<a></b>",
    b"<a><b></a></b>",
    b"<a b='1' b='2'/>",
    b"<a b='1'c='2'/>",
    b"<a b=1/>",
    b"<a b/>",
    b"<a b='<'/>",
    b"<a b='&'/>",
    b"<a>&amp</a>",
    b"<a>&nbsp;</a>",
    b"<a>]]></a>",
    b"<a>&#0;</a>",
    b"<a>&#xD800;</a>",
    b"<a>&#xFFFE;</a>",
    b"<a>&#1114112;</a>",
    b"<a>&#x;</a>",
    b"<a>\x01</a>",
    b"<a>\xff</a>",
    b"<a>\xc0\xaf</a>",
    b"<a>\xed\xa0\x80</a>",
    b"<a>\xef\xbf\xbe</a>",
    b"<a>\xf4\x90\x80\x80</a>",
    b"<a>\xe2\x82</a>",
    b"<1a/>",
    b"<-a/>",
    b"< a/>",
    b"</a>",
    b"<!-- -- --><a/>",
    b"<!-- --->",
    b"<a><!-- </a>",
    b"<![CDATA[x]]><a/>",
    b"<a/><![CDATA[x]]>",
    b"<a><![CDATA[x]]</a>",
    b"<a><?xml version='1.0'?></a>",
    b"<a><?XML?></a>",
    b" <?xml version='1.0'?><a/>",
    b"<?xml encoding='UTF-8'?><a/>",
    b"<?xml version='1.0' standalone='maybe'?><a/>",
    b"<?xml version='1.0' standalone='yes' encoding='UTF-8'?><a/>",
    b"<?xml version='1.0'><a/>",
    b"<a><? p?></a>",
    b"<a/><!D",
]

# name of the class, whether ours and the peer's accept, documents
DIFFERENT = [
    ("document types are refused", False, True, [b"<!DOCTYPE a><a/>", b"<!DOCTYPE a [<!ENTITY b 'c'>]><a>&b;</a>"]),
    ("other encodings are refused", False, True, [b"<?xml version='1.0' encoding='ISO-8859-1'?><a/>"]),
    ("bytes past ASCII stand in documents that declare US-ASCII", True, False,
     ["<?xml version='1.0' encoding='US-ASCII'?><a>\u00e9</a>".encode()]),
    ("names are ASCII", False, True, ["<\u00e9/>".encode(), "<a \u00e9='1'/>".encode(), "<?\u00e9?><a/>".encode()]),
    ("elements stand at most 32 deep", False, True, [b"<a>" * 33 + b"</a>" * 33]),
    ("prefixes need no declaration", True, False, [b"<p:a/>", b"<a p:b='1'/>"]),
    ("attributes with the same local name may have two prefixes", True, False,
     [b"<a xmlns:p='u' xmlns:q='u' p:b='1' q:b='2'/>"]),
]


def ours(document):
    """What is answered piece by piece and as a whole, which is the same."""
    answers = {subprocess.run([OURS, *words], input=document, capture_output=True).stdout.decode().strip() for words in ([], ["tree"])}
    return " and ".join(sorted(answers))


def peer(document):
    done = subprocess.run(["xmllint", "--noout", "-"], input=document, capture_output=True)
    errors = done.stderr.decode(errors="replace")
    return done.returncode == 0 and "namespace error" not in errors, errors


def changed(rng):
    """A document with a few bytes taken out, put in, doubled or exchanged."""
    text = bytearray(rng.choice(GOOD * 4 + BAD))
    for _ in range(rng.choice([1, 1, 1, 2])):
        at = rng.randint(0, len(text))
        size = rng.choice([1, 1, 2, 3])
        way = rng.choice([0, 1, 1, 1, 2, 3])
        if way == 0:
            del text[at : at + size]
        elif way == 1:
            text[at:at] = bytes(rng.choice(b"<>/&;'\"=!?-[]# \r:. \t\n  aaabbbx12") for _ in range(size))
        elif way == 2:
            text[at:at] = text[at : at + size * 4]
        else:
            text[at : at + size] = rng.choice([b"<!--", b"-->", b"<![CDATA[", b"]]>", b"<?p ", b"?>", b"&#", b"<b>", b"</b>"])
    return bytes(text)


def explains(document, said, accepted, errors):
    """The class of a difference, if there is one."""
    if said.startswith("refused Doctype"):
        return "document types are refused"
    if said.startswith("refused Encoding"):
        return "other encodings are refused"
    if said.startswith("refused Deep"):
        return "elements stand at most 32 deep"
    if said == "accepted" and "encoding" in errors:
        return "bytes past ASCII stand in documents that declare US-ASCII"
    if said == "accepted" and "namespace error" in errors:
        return "prefixes need no declaration"
    if said != "accepted" and re.search(rb":", document):
        return "a name has one colon at most, between two parts"
    if said != "accepted" and re.search(rb"version\s*=\s*.(?!1\.[0-9]+['\"])", document):
        return "versions are `1.` and digits"
    if said != "accepted" and re.search(rb"['\"](standalone|encoding)\s*=", document):
        return "white space stands before each part of a declaration"
    return None


def main():
    documents = [(text, True, True, None) for text in GOOD] + [(text, False, False, None) for text in BAD]
    for name, mine, other, texts in DIFFERENT:
        documents += [(text, mine, other, name) for text in texts]
    rng = random.Random(20000)
    documents += [(changed(rng), None, None, None) for _ in range(CHANGES)]

    counts, wrong = collections.Counter(), 0
    with ThreadPoolExecutor() as pool:
        verdicts = pool.map(lambda d: (ours(d[0]), *peer(d[0])), documents)
        for (document, mine, other, name), (said, accepted, errors) in zip(documents, verdicts):
            taken = said == "accepted"
            if mine is not None and (taken, accepted) != (mine, other):
                print(f"not as written here: {document!r}: {said}; xmllint {'accepts' if accepted else errors.strip()}")
                wrong += 1
                continue
            if taken == accepted:
                counts["both accept" if taken else "both refuse"] += 1
                continue
            name = name or explains(document, said, accepted, errors)
            if name is None:
                print(f"unexplained: {document!r}: {said}; xmllint {'accepts' if accepted else errors.strip()}")
                wrong += 1
            else:
                counts[name] += 1
    for name, count in counts.most_common():
        print(f"{count:6} {name}")
    print(f"{wrong:6} unexplained")
    sys.exit(1 if wrong else 0)


main()
