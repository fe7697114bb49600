"""./build: what it makes, when it makes it again, and where it installs. The kit is a fake; tests/c/install has the real one."""

import os
import re
import unittest
from pathlib import Path

from checkout import Checkout, checkout
from declared import made_by_build, text_of

VERSION = re.search(r'^#define DESK_VERSION "(.+)"$', text_of("include/desk.h"), re.MULTILINE)[1]
LOADED = f"libdesk.so.{VERSION.split('.')[0]}"
LINKS = {"libdesk.so": LOADED, LOADED: f"libdesk.so.{VERSION}"}
BOTH = ["desk lib", "calls run"]


def where(desk: Checkout) -> str:
    target = desk.root / "target"
    return (
        f"static library: {target}/staticlib/libdesk.a\nshared library: {target}/lib/libdesk.so\nprogram calls: {target}/bin/calls\n"
    )


def links(folder: Path) -> dict[str, str]:
    return {path.name: os.readlink(path) for path in folder.iterdir() if path.is_symlink()}


class Built(unittest.TestCase):
    def test_says_where_each_is(self) -> None:
        with checkout() as desk:
            done = desk.run("build")
            self.assertEqual((done.returncode, done.stdout), (0, where(desk)))
            for name in made_by_build():
                self.assertTrue((desk.root / name).is_file(), name)

    def test_does_nothing_twice(self) -> None:
        with checkout() as desk:
            desk.run("build")
            done = desk.run("build")
            self.assertEqual((done.returncode, done.stdout, done.stderr), (0, where(desk), ""))
            self.assertEqual(desk.calls_of_rt(), BOTH)

    def test_makes_again_what_is_missing_or_older_than_a_source(self) -> None:
        for name, built, made in (
            ("target/staticlib/libdesk.a", "crates/desk/out/libdesk.a", BOTH[:1]), ("target/bin/calls", "crates/calls/out/calls", BOTH[1:]),
        ):
            with checkout() as desk:
                desk.run("build")
                desk.age(name, built)
                desk.run("build")
                (desk.root / name).unlink()
                (desk.root / built).unlink()
                self.assertEqual(desk.run("build").stdout, where(desk))
                self.assertEqual(desk.calls_of_rt(), BOTH + made + made)

    def test_takes_a_program_that_the_gate_built(self) -> None:
        with checkout() as desk:
            desk.run("build")
            (desk.root / "target/bin/calls").unlink()
            self.assertEqual(desk.run("build").stdout, where(desk))
            self.assertEqual(desk.calls_of_rt(), BOTH)

    def test_links_again_without_a_proof(self) -> None:
        for spoil in ("libdesk.so", LOADED, f"libdesk.so.{VERSION}"):
            with checkout() as desk:
                desk.run("build")
                folder = desk.root / "target" / "lib"
                (folder / spoil).unlink()
                self.assertEqual(desk.run("build").stderr, "")
                self.assertEqual((folder / "libdesk.so").read_text(), (folder / f"libdesk.so.{VERSION}").read_text())
                self.assertEqual(desk.calls_of_rt(), BOTH)

    def test_a_library_of_another_version_is_gone(self) -> None:
        with checkout() as desk:
            desk.run("build")
            header = desk.root / "include" / "desk.h"
            header.write_text(header.read_text().replace(f'"{VERSION}"', '"90.0.3"'))
            desk.run("build")
            folder = desk.root / "target" / "lib"
            self.assertEqual({path.name for path in folder.iterdir()}, {"libdesk.so", "libdesk.so.90", "libdesk.so.90.0.3"})
            self.assertIn("-soname libdesk.so.90 ", (folder / "libdesk.so").read_text())

    def test_the_library_has_its_version_in_its_names(self) -> None:
        with checkout() as desk:
            desk.run("build")
            folder = desk.root / "target" / "lib"
            self.assertEqual(links(folder), LINKS)
            self.assertIn(f"-soname {LOADED} ", (folder / f"libdesk.so.{VERSION}").read_text())

    def test_nothing_is_left_of_a_library_that_is_not_proved(self) -> None:
        with checkout() as desk:
            desk.run("build")
            desk.age("target/staticlib/libdesk.a")
            self.assertEqual(desk.run("build", REFUSED="fields").returncode, 1)
            self.assertEqual([*(desk.root / "target" / "lib").iterdir(), *(desk.root / "target" / "staticlib").iterdir()], [])

    def test_other_machines(self) -> None:
        with checkout() as desk:
            desk.program(desk.tools / "uname", "#!{bash}\necho sparc\n")
            done = desk.run("build")
            said = "build: the kit builds libraries for x86-64 alone, and this machine is sparc\n"
            self.assertEqual((done.returncode, done.stdout, done.stderr), (2, "", said))


class Installed(unittest.TestCase):
    def installed(self, desk: Checkout, prefix: str, place: Path, **variables: str) -> str:
        """Installs and looks at what is there. Answers the file of pkg-config."""
        done = desk.run("build", "--install", prefix, **variables)
        names = ("include/desk.h", "lib/libdesk.a", "lib/libdesk.so", "lib/pkgconfig/desk.pc")
        self.assertEqual((done.returncode, done.stdout), (0, where(desk) + "".join(f"installed: {place}/{name}\n" for name in names)))
        self.assertEqual(links(place / "lib"), LINKS)
        self.assertEqual((place / "include/desk.h").read_text(), (desk.root / "include/desk.h").read_text())
        self.assertEqual((place / "lib/libdesk.a").read_text(), "archive\n")
        self.assertEqual((place / "lib/libdesk.so").read_text(), (desk.root / "target/lib/libdesk.so").read_text())
        return (place / "lib/pkgconfig/desk.pc").read_text()

    def test_below_a_prefix(self) -> None:
        with checkout() as desk:
            prefix = desk.tools.parent / "prefix"
            for written in (prefix, f"{prefix}/"):  # and a second time over the first
                described = self.installed(desk, str(written), prefix)
                self.assertIn(f"prefix={prefix}\n", described)
                self.assertIn(f"\nVersion: {VERSION}\n", described)
                self.assertNotIn("@", described)

    def test_below_a_relative_prefix_with_blanks(self) -> None:
        with checkout() as desk:
            described = self.installed(desk, "a & b", desk.root / "a & b")
            self.assertIn(f"prefix={desk.root}/a\\ &\\ b\n", described)

    def test_a_prefix_that_pkg_config_cannot_read(self) -> None:
        with checkout() as desk:
            for prefix in ("a'b", 'a"b', "a\\b", "a#b", "a$b", "a%b", "a\nb"):
                done = desk.run("build", "--install", prefix)
                self.assertEqual((done.returncode, done.stdout), (2, ""))
                self.assertRegex(done.stderr, "^build: PREFIX may have no quote")
            self.assertEqual(desk.calls_of_rt(), [])

    def test_destdir_is_no_part_of_the_prefix(self) -> None:
        with checkout() as desk:
            stage = desk.tools.parent / "stage"
            described = self.installed(desk, "/opt/desk", stage / "opt/desk", DESTDIR=str(stage))
            self.assertIn("prefix=/opt/desk\n", described)

    def test_where_nothing_can_be_written(self) -> None:
        with checkout() as desk:
            desk.write("taken", "")
            done = desk.run("build", "--install", "taken")
            self.assertEqual((done.returncode, done.stdout), (1, where(desk)))


if __name__ == "__main__":
    unittest.main()
