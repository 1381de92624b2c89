"""dump.py [-t | -f NAME SPACE FLAGS] PAGE..: of each page the tree as `specparse page --dump`
prints it; with -t its text as `specparse page` does, with -f what it is as a fragment in that
context; or its status."""
import json
import sys

import specparse

SPACES = {"html": "", "mathml": "math ", "svg": "svg "}


def quoted(text):
    return json.dumps(text, ensure_ascii=False)


def line(node):
    words = [node.kind]
    if node.kind == "element":
        words.append(quoted(SPACES[node.space] + node.name))
    elif node.kind != "contents":
        words.append(quoted(node.name if node.kind == "doctype" else node.text))
    for name, value in node.attributes.items():
        words += [quoted(name), quoted(value)]
    return " ".join(words)


def below(node):
    return ([node.contents] if node.contents else []) + list(node.children())


def dump(root):
    work = [(node, 0) for node in reversed(below(root))]
    while work:
        node, depth = work.pop()
        print("node", depth, line(node))
        work += [(it, depth + 1) for it in reversed(below(node))]
    print("end")


def context(name, space, flags):
    flags = int(flags)
    asked = {"space": list(SPACES)[int(space)], "html_point": flags & 1, "in_form": flags & 2}
    return lambda page: dump(specparse.fragment(name, page, **asked, quirks=flags & 4).root)


def main():
    words, show = sys.argv[1:], lambda page: dump(specparse.parse(page).root)
    if words[0] == "-t":
        words, show = words[1:], lambda page: print("tree", quoted(specparse.html(page)))
    elif words[0] == "-f":
        words, show = words[4:], context(*words[1:4])
    sys.stdout.reconfigure(encoding="utf-8", newline="\n")
    for path in words:
        with open(path, "rb") as file:
            page = file.read()
        try:
            show(page)
        except specparse.Refused as refused:
            print("status", refused.status)


main()
