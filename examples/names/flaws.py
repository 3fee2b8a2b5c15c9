"""What `check` tells of files that are no tree: an image with each flaw, made by hand, and the lines for it. The
image is read alone, and refused as no tree.

    flaws.py PROGRAM
"""
import os
import subprocess
import sys
import tempfile

sys.path.insert(0, os.path.join(os.path.dirname(os.path.realpath(__file__)), os.pardir, "xv6-image"))
# pylint: disable=wrong-import-position
from wrong_images import Wrong, good_image  # noqa: E402

PROGRAM = os.path.realpath(sys.argv[1])



def circle(image):
    """/a goes into /a/b, by no name of the root."""
    image.set_word(4, 4, 48)
    image.set_entry(4, 2, 3, b"a")
    image.set_entry(1, 3, 0, b"")
    image.set_entry(3, 1, 4, b"..")


# The good image has /f as file 2, which is also /a/g, and /a 3, /a/b 4, /long 5 and /e 6. What is done to it, and
# what is told then.
ROWS = [
    ("a file without a name", lambda image: image.set_entry(1, 4, 0, b""),
     "no name 5 type 2 size 14000 links 1\n"),
    ("a directory without a name", lambda image: image.set_entry(3, 2, 0, b""),
     "no name 4 type 1 size 32 links 1\n"),
    (".. that leads elsewhere", lambda image: image.set_entry(4, 1, 1, b".."),
     "/ 1 links 3 names 4\n/a/ 3 links 2 names 1\n/a/b/.. 1 not its parent\n"),
    ("no ..", lambda image: image.set_entry(4, 1, 0, b""),
     "/a/ 3 links 2 names 1\n/a/b/.. 0 not its parent\n"),
    (". that leads elsewhere", lambda image: image.set_entry(3, 0, 4, b"."), "/a/. 4 not itself\n"),
    ("a name twice", lambda image: image.set_entry(1, 4, 5, b"f"), "/f 5 name twice\n"),
    ("a name with a slash", lambda image: image.set_entry(1, 4, 5, b"a/b"), "/a/b 5 bad name\n"),
    ("a name of no byte", lambda image: image.set_entry(1, 4, 5, b""), "/ 5 bad name\n"),
    ("a name of no file", lambda image: image.set_entry(1, 4, 9, b"long"),
     "/long 9 no file\nno name 5 type 2 size 14000 links 1\n"),
    ("a number that no image has", lambda image: image.set_entry(1, 4, 65535, b"long"),
     "/long 65535 no file\nno name 5 type 2 size 14000 links 1\n"),
    ("a directory with two names", lambda image: image.set_entry(1, 4, 4, b"long"),
     "/a/b/ 4 second name\n/long/.. 3 not its parent\n/long/ 4 links 1 names 2\n"
     "no name 5 type 2 size 14000 links 1\n"),
    ("a name of the root", lambda image: image.set_entry(1, 4, 1, b"long"),
     "/long/ 1 second name\n/ 1 links 3 names 4\nno name 5 type 2 size 14000 links 1\n"),
    ("part of an entry", lambda image: image.set_word(6, 4, 33), "/e/ 6 torn\n"),
    ("a root that is no directory", lambda image: image.set_word(1, 0, 2),
     "/ 1 no directory\n/ 1 links 3 names 2\n#3/g 2 links 2 names 1\nno name 3 type 1 size 64 links 2\n"
     "no name 5 type 2 size 14000 links 1\nno name 6 type 1 size 32 links 1\n"),
    ("a circle of directories", circle,
     "/ 1 links 3 names 2\n#3/ 3 in a circle\n#4/ 4 in a circle\n#4/ 4 links 1 names 2\n"),
]


def main():
    for name, change, wanted in ROWS:
        image = Wrong(good_image())
        change(image)
        with open("a.img", "wb") as file:
            file.write(image.data)
        ran = subprocess.run([PROGRAM, "check", "a.img"], capture_output=True, timeout=60)
        if (ran.returncode, ran.stderr) != (1, b"xvnames: names 13 NoTree\n"):
            sys.exit("names: check of %s: status %d, %s" % (name, ran.returncode, ran.stderr.decode()))
        if ran.stdout != wanted.encode():
            sys.exit("names: check of %s tells:\n%s" % (name, ran.stdout.decode()))
        with open("a.img", "rb") as file:
            if file.read() != image.data:
                sys.exit("names: check of %s changed the image" % name)
    print("check: each of %d flaws by its path and its number" % len(ROWS))


if __name__ == "__main__":
    with tempfile.TemporaryDirectory() as folder:
        os.chdir(folder)
        main()
