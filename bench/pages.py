"""The kinds of pages that bench/run and bench/peer measure, and how a run is measured.

"The output left out": a byte that isn't UTF-8 stands behind the page. The program parses the
page, builds its tree, meets the byte and refuses the page in one line, so the tree is made and
its text isn't."""
import os, platform, re, subprocess, sys, time

WORDS = "Some text of an ordinary page, with a few words in it. "
# name: what stands before, the item that is repeated (with {n}, its number), what stands behind
KINDS = {
    "bench page": ("<!DOCTYPE html><title>A page</title><body>",
                   "<h2 id=s{n}>A heading</h2><p>" + WORDS + "<b>bold <i>and</i></b> a <a href=x?a=1&amp;b=2>link</a>, &mdash; " + WORDS
                   + "<ul class=list><li>one<li>two &lt; three</ul><table><tr><th>a<th>b<tr><td>1<td>2</table><!-- a comment -->\n",
                   "</body></html>"),
    "article": ("<!DOCTYPE html><title>An article</title><body>",
                "<h2>A heading</h2><p>" + WORDS + "<b>bold <i>and</i></b> a <a href=x?a=1&amp;b=2>link</a>, &mdash; " + WORDS
                + "<!-- a comment --><ul><li>one<li>two</ul>", ""),
    "paragraphs": ("", '<p class="a b" id=x1>' + WORDS + "\n", ""),
    "text": ("<p>", WORDS, ""),
    "tags": ("", "<i-i a=1 b='2' c></i-i>", ""),
    "references": ("<p>", "a&amp;b &lt; &#169; &notit; ", ""),
    "formatting": ("<p>", "<b>x</b><i><b>y</i></b>", ""),
    "tables": ("", "<table><tr><td>" + WORDS + "<th>b</table>\n", ""),
    "rows": ("<table>", "<tr><td>a<td>b", ""),
    "script text": ('<script type="text/plain">', WORDS, "</script>"),
    "comment": ("<!--", WORDS, "-->"),
    "doctype": ("<!DOCTYPE ", WORDS.replace(" ", "-"), ">"),
    "siblings": ("<div>", "<i>x</i>", ""),
    "fostered": ("<table>", "<i>x</i>y", ""),
    "svg": ("<ul>", '<li><a href="#x"><svg width="16" height="16" viewBox="0 0 16 16" aria-hidden="true">'
            '<path fill="none" d="M8 0a8 8 0 1 0 0 16A8 8 0 0 0 8 0z"/></svg> Icon</a>\n', "</ul>"),
    "svg text": ("<svg><text>", WORDS, ""),
    # a `&` between the parts of an address, as most pages have it
    "links": ("<p>", '<a href="/page/index.php?id={n}&b=2">text</a> ', ""),
    "attributes": ("<i-i", " a{n}=1", ">"),
    "html tags": ("", "<html a{n}=1>", ""),
    "scripts": ("<body>", '<script>document.write("<i>x</i>");</script>', ""),
    # what was parsed ahead is kept at each script, and thrown away at each
    "kept": ("", '<p><script>document.write("<i>1</i>");</script>' + WORDS + "\n", ""),
    "failing": ("", '<p><script>document.write("<u>");</script>1</u>' + WORDS * 17 + "\n", ""),
    # a script finds its element, which stands far from the start
    "read by id": ("", '<i id=e{n}>x</i><script>console.log(document.getElementById("e{n}").outerHTML);</script>', ""),
    "removed": ("", '<i id=e{n}>x</i><script>document.getElementById("e{n}").remove();</script>', ""),
    # one fragment of a long text, and many short ones
    "inner": ('<div id=e></div><script>document.getElementById("e").innerHTML = "', "<p class='a b' id=x1>" + WORDS, '";</script>'),
    # the same text written
    "written": ('<div id=e></div><script>document.write("', "<p class='a b' id=x1>" + WORDS, '");</script>'),
    "inners": ("", '<p id=e{n}></p><script>document.getElementById("e{n}").innerHTML = "<i>x</i>y";</script>', ""),
    "writer": ("<body>", '<script>document.write("' + "<i>x</i>" * 100 + '");</script>', ""),
}
# as many as the characters that scripts may write allow
MOST = {"scripts": 100000, "kept": 130000, "failing": 340000, "writer": 1300, "written": 13500}


def write(kind, size, path, refused=False):
    """Writes a page of this kind, of about so many bytes, and gives its bytes; refused: with the byte that leaves the output out."""
    front, item, back = KINDS[kind]
    count = min(size // len(item) + 1, MOST.get(kind, size))
    items = item * count if "{n}" not in item else "".join(item.replace("{n}", str(n)) for n in range(count))
    text = (front + items + back).encode() + (b"\xff" if refused else b"")
    with open(path, "wb") as page:
        page.write(text)
    return len(text)


def most_held(pid):
    """The most bytes that the process has held so far. (The kernel's ru_maxrss would count those of this one, before exec.)"""
    with open("/proc/%d/status" % pid, encoding="utf-8") as lines:
        return sum(int(line.split()[1]) * 1024 for line in lines if line.startswith("VmHWM:"))


class Used:
    """The least processor seconds of the runs that were taken, and the most memory that one held."""

    def __init__(self):
        self.seconds, self.memory = None, 0

    def take(self, words, statuses=(0,)):
        run = subprocess.Popen(words, stdout=subprocess.DEVNULL, stderr=subprocess.DEVNULL)
        ended = 0
        while not ended:
            self.memory = max(self.memory, most_held(run.pid))
            time.sleep(0.002)
            ended, status, used = os.wait4(run.pid, os.WNOHANG)
        run.returncode = os.waitstatus_to_exitcode(status)
        if run.returncode not in statuses:
            sys.exit("%s: status %d" % (" ".join(words), run.returncode))
        seconds = used.ru_utime + used.ru_stime
        self.seconds = seconds if self.seconds is None else min(self.seconds, seconds)


def instructions(words):
    """How many a run takes, by valgrind. They hardly vary with what else the machine does."""
    ran = subprocess.run(["valgrind", "--tool=callgrind", "--callgrind-out-file=/dev/null", *words], stdout=subprocess.DEVNULL,
                         stderr=subprocess.PIPE, text=True)
    return int(re.search(r"Collected *: *([0-9]+)", ran.stderr)[1])


def machine():
    """The machine and the day, for a line above a table."""
    name = platform.machine()
    for line in open("/proc/cpuinfo", encoding="utf-8"):
        if line.startswith("model name"):
            name = line.split(":", 1)[1].strip()
            break
    return "%s, %d processors, load %.1f, %s" % (name, os.cpu_count(), os.getloadavg()[0], time.strftime("%Y-%m-%d"))
