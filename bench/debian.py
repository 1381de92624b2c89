"""The Debian packages that other parsers are built of. Debian's cargo and rustc, since a newer
rustc refuses the packaged crates."""
import os, subprocess, sys

# a file of each package
PACKAGES = {
    "cargo": "/usr/bin/cargo", "rustc": "/usr/bin/rustc", "gcc": "/usr/bin/gcc", "patch": "/usr/bin/patch", "libgumbo-dev": "/usr/include/gumbo.h",
    "libmodest-dev": "/usr/include/myhtml/api.h",
    "librust-html5ever-dev": "/usr/share/doc/librust-html5ever-dev",
    "librust-markup5ever-rcdom-dev": "/usr/share/doc/librust-markup5ever-rcdom-dev",
}
REGISTRY = "/usr/share/cargo/registry"
# cargo takes the crates from Debian's folder, and asks no network
SOURCES = ['source.crates-io.replace-with="debian"', 'source.debian.directory="%s"' % REGISTRY, "net.offline=true"]


def install(packages=PACKAGES):
    wanted = [name for name, file in packages.items() if not os.path.exists(file)]
    if wanted:
        print("installing", *wanted, file=sys.stderr)
        quiet = {"stdout": subprocess.DEVNULL, "check": True, "env": {**os.environ, "DEBIAN_FRONTEND": "noninteractive"}}
        subprocess.run(["apt-get", "update", "-q"], **quiet)
        subprocess.run(["apt-get", "install", "-y", "-q", "--no-install-recommends", *wanted], **quiet)


def build(folder, out):
    """Builds the Rust program of a folder; gives the folder in which it lies then."""
    words = ["/usr/bin/cargo", "build", "--release", "--quiet", "--target-dir", out]
    for source in SOURCES:
        words += ["--config", source]
    environment = {"PATH": "/usr/bin:/bin", "HOME": out, "RUSTFLAGS": "-C target-cpu=x86-64-v2 --cap-lints allow"}
    subprocess.run(words, cwd=folder, env=environment, check=True)
    return os.path.join(out, "release")
