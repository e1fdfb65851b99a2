"""Tries the module over the examples: python3 -m unittest, in this folder, with SHADER_CHECK_LIBRARY."""
import ctypes
import threading
import unittest
from pathlib import Path

import shader_check

EXAMPLES = Path(__file__).resolve().parent.parent


def of_buffers(text):
    """The lines of an answer up to those of its first entry point."""
    return text.split("\nentry ")[0] + "\n" if "\nentry " in text else text


def without_leaves(text):
    """The lines of an answer but those of what lies in its buffers."""
    return "".join(it for it in text.splitlines(True) if not it.startswith("leaf "))


class Documents(unittest.TestCase):
    def test_each_example_has_its_answer(self):
        for file in sorted(EXAMPLES.glob("*.json")):
            with self.subTest(file.name):
                answer = shader_check.check(file.read_bytes())
                self.assertEqual(answer.text, file.with_suffix(".txt").read_text())
                self.assertEqual(answer.accepted, file.name.startswith(("accepted", "shader")))

    def test_an_object_says_why(self):
        answer = shader_check.check_json((EXAMPLES / "refused-document-unknown-flag.json").read_text())
        self.assertEqual(answer.status, shader_check.Status.REFUSED)
        self.assertEqual(answer.data["step"], "document")
        self.assertEqual(answer.data["path"], "flags[0]")

    def test_leaves_stand_below_their_buffers(self):
        for file in sorted(EXAMPLES.glob("*.json")):
            with self.subTest(file.name):
                answer = shader_check.check_leaves(file.read_bytes())
                self.assertEqual(without_leaves(answer.text), of_buffers(file.with_suffix(".txt").read_text()))
                leaves = file.with_suffix(".leaves.txt")
                if leaves.is_file():
                    self.assertEqual(answer.text, leaves.read_text())

    def test_a_text_and_its_bytes_are_judged_alike(self):
        self.assertEqual(shader_check.check("junk"), shader_check.check(b"junk"))
        self.assertEqual(shader_check.check("junk").text, "refused document\n")

    def test_bytes_with_a_zero_are_judged_whole(self):
        self.assertEqual(shader_check.check(b"[\0]").text, "refused document\n")


class Modules(unittest.TestCase):
    def test_each_example_has_its_answer(self):
        for file in sorted(EXAMPLES.glob("spirv/*.spv")):
            with self.subTest(file.name):
                answer = shader_check.check_spirv(file.read_bytes())
                self.assertEqual(answer.text, file.with_suffix(".answer").read_text())

    def test_an_object_has_the_verdict(self):
        for file in sorted(EXAMPLES.glob("spirv/*.spv")):
            with self.subTest(file.name):
                answer = shader_check.check_spirv_json(file.read_bytes())
                first = file.with_suffix(".answer").read_text().split()[0].rstrip(":")
                self.assertEqual(answer.data["verdict"], first)

    def test_leaves_stand_below_their_buffers(self):
        for file in sorted(EXAMPLES.glob("spirv/*.spv")):
            with self.subTest(file.name):
                answer = shader_check.check_spirv_leaves(file.read_bytes())
                self.assertEqual(without_leaves(answer.text), of_buffers(file.with_suffix(".answer").read_text()))

    def test_the_document_has_the_same_answer(self):
        for file in sorted(EXAMPLES.glob("spirv/*.spv")):
            with self.subTest(file.name):
                due = file.with_suffix(".answer").read_text()
                try:
                    document = shader_check.document_of_spirv(file.read_bytes())
                except ValueError as why:
                    self.assertEqual(str(why), due.strip())
                else:
                    self.assertEqual(shader_check.check(document).text, due)

    def test_a_text_is_no_module(self):
        answer = shader_check.check_spirv("junk")
        self.assertEqual(answer.status, shader_check.Status.UNREAD)
        self.assertTrue(answer.text.startswith("malformed: "))


class Texts(unittest.TestCase):
    def test_each_example_has_its_answer(self):
        for file in sorted(EXAMPLES.glob("wgsl/*.wgsl")):
            with self.subTest(file.name):
                answer = shader_check.check_wgsl(file.read_text())
                self.assertEqual(answer.text, file.with_suffix(".answer").read_text())
                self.assertEqual(answer, shader_check.check_wgsl(file.read_bytes()))

    def test_an_object_has_the_verdict_and_the_place(self):
        for file in sorted(EXAMPLES.glob("wgsl/*.wgsl")):
            with self.subTest(file.name):
                answer = shader_check.check_wgsl_json(file.read_text())
                due = file.with_suffix(".answer").read_text().split("\n")[0]
                self.assertEqual(answer.data["verdict"], due.split()[0].rstrip(":"))
                if answer.status == shader_check.Status.UNREAD:
                    place = answer.data["wgsl"]
                    self.assertEqual(f'{place["line"]}:{place["column"]}', due.split()[-1])

    def test_leaves_stand_below_their_buffers(self):
        for file in sorted(EXAMPLES.glob("wgsl/*.wgsl")):
            with self.subTest(file.name):
                answer = shader_check.check_wgsl_leaves(file.read_text())
                self.assertEqual(without_leaves(answer.text), of_buffers(file.with_suffix(".answer").read_text()))

    def test_the_document_has_the_same_answer(self):
        for file in sorted(EXAMPLES.glob("wgsl/*.wgsl")):
            with self.subTest(file.name):
                due = file.with_suffix(".answer").read_text()
                try:
                    document = shader_check.document_of_wgsl(file.read_text())
                except ValueError as why:
                    self.assertEqual(str(why), due.strip())
                else:
                    self.assertEqual(shader_check.check(document).text, due)

    def test_bytes_that_are_no_text_are_not_read(self):
        answer = shader_check.check_wgsl(b"fn \xff() {}")
        self.assertEqual(answer.status, shader_check.Status.UNREAD)
        self.assertTrue(answer.text.startswith("malformed: "))


class Library(unittest.TestCase):
    def test_its_version_is_that_of_the_module(self):
        self.assertEqual(".".join(str(it) for it in shader_check.version()), shader_check.__version__)

    def test_null_is_allowed_where_nothing_is_wanted(self):
        library, needed = shader_check._library, ctypes.c_size_t()
        document = (EXAMPLES / "shader-compute-blur.json").read_bytes()
        self.assertEqual(library.shader_check(document, len(document), None, 0, None), shader_check.Status.ACCEPTED)
        self.assertEqual(library.shader_check(document, len(document), None, 7, ctypes.byref(needed)), shader_check.Status.ACCEPTED)
        self.assertEqual(needed.value, len((EXAMPLES / "shader-compute-blur.txt").read_bytes()))
        self.assertEqual(library.shader_check(None, 5, None, 0, None), shader_check.Status.REFUSED)
        self.assertEqual(library.shader_check_spirv(None, 0, None, 0, None), shader_check.Status.UNREAD)
        self.assertEqual(library.shader_check_wgsl(None, 5, None, 0, None), shader_check.Status.ACCEPTED)


class Threads(unittest.TestCase):
    def test_threads_get_the_same_answer(self):
        document = (EXAMPLES / "shader-compute-blur.json").read_bytes()
        answers = []
        threads = [threading.Thread(target=lambda: answers.append(shader_check.check(document).text)) for _ in range(8)]
        for it in threads:
            it.start()
        for it in threads:
            it.join()
        self.assertEqual(set(answers), {(EXAMPLES / "shader-compute-blur.txt").read_text()})


if __name__ == "__main__":
    unittest.main()
