"""python_peer.py PARSER PAGE ROUNDS: the least processor seconds that the parser took for the
page's tree, of so many rounds. PARSER is specparse, lxml, html5lib or bs4."""
import os, sys, time

HERE = os.path.dirname(os.path.realpath(__file__))


def parser(name):
    if name == "specparse":
        sys.path.insert(0, os.path.join(HERE, "..", "..", "bindings", "python"))
        import specparse
        return specparse.parse
    if name == "lxml":
        import lxml.html
        return lxml.html.document_fromstring
    if name == "html5lib":
        import html5lib
        return html5lib.parse
    import bs4
    return lambda page: bs4.BeautifulSoup(page, "html.parser")


def main():
    name, path, rounds = sys.argv[1:]
    parse = parser(name)
    with open(path, "rb") as file:
        page = file.read()
    least = None
    for _ in range(int(rounds)):
        start = time.process_time()
        tree = parse(page)
        took = time.process_time() - start
        del tree
        least = took if least is None else min(least, took)
    print("%.4f" % least)


main()
