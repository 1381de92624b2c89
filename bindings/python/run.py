"""run.py [-d] PAGE FOLDER..: of each page what `specparse page` prints of it with the scripts of
that folder, with -d the dump; and then its status, and how many bytes these were."""
import os
import sys

import specparse


def read(path):
    with open(path, "rb") as file:
        return file.read()


def main():
    words, out = sys.argv[1:], sys.stdout.buffer
    dump = words[0] == "-d"
    words = words[dump:]
    for page, folder in zip(words[::2], words[1::2]):
        names = os.listdir(folder) if os.path.isdir(folder) else []
        scripts = {name: read(os.path.join(folder, name)) for name in names}
        try:
            text, status = specparse.run(read(page), scripts, dump), 0
        except specparse.Refused as refused:
            text, status = refused.printed, refused.status
        text = text.encode()
        out.write(text + b"status %d, %d bytes\n" % (status, len(text)))


main()
