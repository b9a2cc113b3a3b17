"""Tests of takhvoi.py: python3 -m unittest, where TAKHVOI_LIBRARY names libtakhvoi.so, and TAKHVOI_HEADER takhvoi.h."""

from __future__ import annotations

import os
import re
import sys
import tempfile
import threading
import unittest

import _takhvoi
import takhvoi
import takhvoi_shown
from takhvoi import Error, Kernel


class Blocks(unittest.TestCase):
    def setUp(self) -> None:
        self.kernel = Kernel.in_memory()
        self.addCleanup(self.kernel.close)

    def refuses(self, number: int) -> unittest.case._AssertRaisesContext:
        return self.assertRaisesRegex(Error, re.escape(_takhvoi.TEXTS[number]))

    def test_locks_are_given_back(self) -> None:
        with self.kernel.make_block() as block:
            with self.kernel.lock(block.handle):
                self.assertEqual(self.kernel.locks(block.handle), 2)
            self.assertEqual(self.kernel.locks(block.handle), 1)
            chunk = block.make_chunk(b"abc")
            with self.refuses(7):
                self.kernel.free(block.handle)
        with self.refuses(101):
            chunk.read()
        block.unlock()
        self.kernel.free(block.handle)
        with self.refuses(1):
            self.kernel.lock(block.handle)

    def test_a_kernel_in_memory_closes_no_file(self) -> None:
        before = os.fstat(0)
        Kernel.in_memory().close()
        self.assertEqual(os.fstat(0).st_ino, before.st_ino)

    def test_chunks_change(self) -> None:
        with self.kernel.make_block() as block:
            chunk = block.make_chunk(b"abcdef")
            chunk.delete(1, 2)
            chunk.insert(1, 1)
            chunk.write(1, bytearray(b"x"))
            self.assertEqual((chunk.read(), chunk.read(1, 2), len(chunk)), (b"axdef", b"xd", 5))
            chunk.resize(6)
            self.assertEqual(chunk.read(5), b"\0")
            with self.refuses(3):
                chunk.write(5, b"xy")
            with self.refuses(14):
                chunk.delete(5, 2)
            with self.assertRaises(ValueError):
                chunk.resize(65536)
            with self.refuses(105):
                chunk.read(0, -1)
            chunk.free()
            with self.refuses(2):
                len(chunk)
            block.contract()
            self.assertEqual(block.make_chunk(3).read(), bytes(3))

    def test_arrays_change(self) -> None:
        with self.kernel.make_block() as block:
            array = block.make_array()
            for element in (b"b", b"", b"dd"):
                array.append(element)
            array.insert(0, 1)
            array.write(0, 0, b"a")
            array.resize(2, 1)
            del array[1]
            self.assertEqual((list(array), array.read(2, 1, 1)), ([b"a", b"\0", b"dd"], b"d"))
            with self.assertRaises(IndexError):
                array[3]
            with self.refuses(9):
                array.size(3)
            array.clear()
            self.assertEqual(len(array), 0)

    def test_commits(self) -> None:
        kernel = self.kernel
        with kernel.make_file_block(5) as block:
            kernel.set_map_block(block.handle)
            with self.refuses(103):
                kernel.save()
        self.assertTrue(kernel.is_marked(block.handle))
        kernel.save()
        self.assertFalse(kernel.is_marked(block.handle))
        with kernel.lock_file_block(block.handle) as again:
            with self.refuses(102):
                again.make_chunk(1)
            again.mark()
            again.make_chunk(1)
            self.assertEqual(kernel.file_locks(block.handle), 1)
        kernel.free_file_block(block.handle)
        self.assertIsNone(kernel.find(5))
        kernel.update()
        kernel.revert()
        self.assertEqual((kernel.find(5), kernel.map_block(), kernel.user_id(block.handle)), (block.handle, block.handle, 5))
        self.assertTrue(kernel.is_sure())

    def test_memory_is_limited(self) -> None:
        kernel = self.kernel
        with kernel.make_block() as block:
            kernel.limit(64)
            with kernel.make_block():
                with self.refuses(4):
                    block.make_chunk(984)
                with self.refuses(4):
                    kernel.make_block()
            kernel.limit(2**40)
            block.make_chunk(984)
            kernel.limit_blocks(1)
            with self.refuses(5):
                kernel.make_block()
            kernel.limit_blocks(1024)
            kernel.make_block()

    def test_items_change(self) -> None:
        kernel = self.kernel
        group = kernel.make_group()
        item = kernel.make_item(group, 2)
        kernel.insert_in_item(group, item, 2, 1)
        kernel.delete_in_item(group, item, 0, 1)
        kernel.resize_item(group, item, 3)
        self.assertIsNone(kernel.map_item())
        kernel.set_map_item(group, item)
        self.assertEqual(kernel.map_item(), (group, item))
        with kernel.lock_item(group, item) as block:
            block.mark()
            block.chunk(item).write(0, b"xyz")
            self.assertEqual(block.chunk(item).read(), b"xyz")
        for call in (kernel.lock_file_block, kernel.free_file_block, kernel.set_map_block):
            with self.refuses(15):
                call(group)
        kernel.free_item(group, item)
        kernel.free_group(group)

    def test_a_routine_borrows_a_block(self) -> None:
        kernel = self.kernel
        text = """
            routine add public budget 4
                ADD w0 w0 w1
                OUT w0 full
            full:
                RET
            routine first public budget 6
                in s0=vm@
                out s0=vm@
                LDI w1 16
                DEREF s0 p0 w1 1 none
                LDB w0 p0 0
            none:
                RET
        """
        with kernel.load(takhvoi.assemble(text)) as image:
            self.assertEqual(image.run("add", [20, 22]), ([42, 22] + [0] * 6, [42], 3))
            self.assertEqual(image.run("add", [1, 2], room=0).output, [])
            self.assertEqual((image.budget("add"), image.budget(1)), (4, 6))
            with kernel.make_file_block(1) as block, kernel.make_block() as memory:
                block.make_chunk(b"*")
                self.assertEqual(image.run(image.routine("first"), lent=[block]).words[0], 42)
                for lent in ([], [memory], [block] * 5):
                    with self.refuses(114):
                        image.run("first", lent=lent)
                # another block of the file is locked
                with kernel.make_file_block(2), self.refuses(114):
                    image.run("first", lent=[block])
            with self.refuses(114):
                image.routine("sub")
        with self.refuses(114):
            image.run(0)

    def test_shown(self) -> None:
        kernel = self.kernel
        with kernel.make_block() as block:
            chunk = block.make_chunk(b"abc")
            (place,) = takhvoi_shown.places(kernel)
            self.assertEqual((place.handle, place.of_file, place.locks), (block.handle, False, 1))
            (shown,) = takhvoi_shown.chunks(kernel, block.handle)
            self.assertEqual((shown.handle, takhvoi_shown.region(kernel, shown.at, shown.size)), (chunk.handle, b"abc"))
        with self.refuses(1):
            takhvoi_shown.chunks(kernel, 1, of_file=True)
        with kernel.make_file_block(7):
            (entry,) = takhvoi_shown.entries(kernel)
            self.assertEqual((entry.handle, entry.user_id, entry.in_memory, entry.is_marked, entry.locks), (1, 7, True, True, 1))
        text = "routine f public budget 3\n LDI w0 5\n ADD w0 w0 w0\n RET\n"
        self.assertEqual((takhvoi_shown.lines(text), takhvoi_shown.findings(text)), ([2, 3, 4], []))
        (finding,) = takhvoi_shown.findings("routine f public budget 1\n ldi w0 5\n")
        self.assertEqual((finding.kind, finding.line, finding.column), (1, 2, 2))
        with kernel.load(takhvoi.assemble(text)) as image:
            (routine,) = takhvoi_shown.routines(image)
            self.assertEqual((routine.name, routine.is_public, routine.first, routine.length, routine.budget), ("f", True, 0, 3, 3))
            outcome, states = takhvoi_shown.trace(image, "f", first=1)
            self.assertEqual((outcome.steps, [state.words[0] for state in states]), (3, [5, 10]))
            self.assertEqual(states[0].pointers, [None] * 4)

    def test_texts(self) -> None:
        image = takhvoi.assemble("routine f public budget 1\n RET\n")
        self.assertIn("routine f", takhvoi.list_image(image))
        self.assertIn("RET", takhvoi.explain(image))
        said = takhvoi.explain_text("routine f public budget 1\n RET\n")
        self.assertIn("RET", said.text)
        self.assertEqual((said.line, said.column), (None, None))
        self.assertEqual(takhvoi.explain_text("routine f public budget 1\n ldi w0 5\n")[1:], (2, 2))
        source = "pub fn double(n) {\n    out(n + n)?;\n}\n"
        self.assertIn("routine double", takhvoi.list_image(takhvoi.compile_source(source)))
        self.assertEqual(takhvoi.explain_source(source), ("", None, None))
        self.assertEqual(takhvoi.explain_source(source.replace("n + n", "m"))[1:], (2, 9))
        callee = "routine f budget 65535\n RET\n"
        said = takhvoi.explain_text(callee + "routine g public budget 90\n SETK k0 65535\n JMP b\na: BEQ w0 w1 b\n CALL f\nb: LOOP k0 a\n RET\n")
        self.assertIn("CALL f at line 7 pays its budget", said.text)
        self.assertEqual(said.line, 3)
        for call, number, place in (
            (lambda: takhvoi.assemble("routine f public budget x"), 112, 1),
            (lambda: takhvoi.assemble("\nroutine f public budget 9\nagain:\n JMP again\n"), 113, 2),
            (lambda: takhvoi.compile_source(source.replace("n + n", "m")), 112, 2),
            (lambda: self.kernel.load(b"none"), 112, 0),
        ):
            with self.assertRaises(Error) as refused:
                call()
            self.assertEqual((refused.exception.number, refused.exception.place), (number, place))


    def test_lists(self) -> None:
        kernel = self.kernel
        with kernel.make_block() as block, kernel.make_file_block(1) as of_file:
            chunks = [block.make_chunk(2).handle for _ in range(3)]
            self.assertEqual(block.chunks(), chunks)
            self.assertEqual(kernel.blocks(), [block.handle])
            group = kernel.make_group()
            self.assertEqual(kernel.file_blocks(), [of_file.handle, group])
            items = [kernel.make_item(group, 1) for _ in range(2)]
            self.assertEqual(kernel.items(group), items)
        with self.refuses(1):
            kernel.items(99)


class Threads(unittest.TestCase):
    THREADS = 4
    ROUNDS = 200

    def setUp(self) -> None:
        self.addCleanup(sys.setswitchinterval, sys.getswitchinterval())
        sys.setswitchinterval(1e-6)

    def test_threads_share_a_kernel(self) -> None:
        with Kernel.in_memory() as kernel, kernel.make_block() as shared:
            log = shared.make_array()
            wrong: list[object] = []

            def work(name: int) -> None:
                try:
                    for turn in range(self.ROUNDS):
                        word = b"%d %d" % (name, turn)
                        with kernel.make_block() as block, kernel.lock(shared.handle):
                            chunk = block.make_chunk(word)
                            log.append(word)
                            if chunk.read() != word:
                                wrong.append((word, chunk.read()))
                        kernel.free(block.handle)
                except Error as error:
                    wrong.append((name, error))

            threads = [threading.Thread(target=work, args=(name,)) for name in range(self.THREADS)]
            for thread in threads:
                thread.start()
            for thread in threads:
                thread.join()
            self.assertEqual(wrong, [])
            self.assertEqual(kernel.locks(shared.handle), 1)
            words = list(log)
            for name in range(self.THREADS):
                own = [word for word in words if word.startswith(b"%d " % name)]
                self.assertEqual(own, [b"%d %d" % (name, turn) for turn in range(self.ROUNDS)])
            self.assertEqual(len(words), self.THREADS * self.ROUNDS)


class Files(unittest.TestCase):
    def test_a_file_is_kept_and_locked(self) -> None:
        with tempfile.TemporaryDirectory() as folder:
            path = os.path.join(folder, "a.vm")
            with Kernel.create(path) as kernel:
                with kernel.make_file_block(9) as block:
                    block.make_chunk(b"kept")
                kernel.save()
                for call, number in ((Kernel.open, 202), (Kernel.create, 201)):
                    with self.assertRaises(Error) as refused:
                        call(path)
                    self.assertEqual(refused.exception.number, number)
            with self.assertRaises(Error) as closed:
                kernel.save()
            self.assertEqual(closed.exception.number, 100)
            with Kernel.open(path) as kernel, kernel.lock_file_block(block.handle) as again:
                self.assertEqual(again.chunk(16).read(), b"kept")
            with open(path, "rb") as file:
                whole = file.read()
            # no VM file, and one without its areas, of which one is read
            for content, places in ((b"none", (0,)), (whole[:871], (1024, 1024 + (len(whole) - 1024) // 2))):
                with open(path, "wb") as file:
                    file.write(content)
                with self.assertRaises(Error) as bad:
                    Kernel.open(path)
                self.assertEqual(bad.exception.number, 110)
                self.assertIn(bad.exception.place, places)
            with self.assertRaises(Error) as size:
                Kernel.in_memory(area=(1 << 32) + 512)
            self.assertEqual(size.exception.number, 105)


class Header(unittest.TestCase):
    @unittest.skipUnless("TAKHVOI_HEADER" in os.environ, "TAKHVOI_HEADER is not set")
    def test_says_the_same(self) -> None:
        header = ""
        for path in (os.environ["TAKHVOI_HEADER"], os.environ["TAKHVOI_HEADER"].replace("takhvoi.h", "takhvoi_file.h")):
            with open(path, encoding="ascii") as file:
                header += re.sub(r"/\*.*?\*/", "", file.read(), flags=re.S)
        numbers = {name: int(number) for name, number in re.findall(r"TAKHVOI_(\w+) = (\d+)", header)}
        texts = {numbers[name]: text for name, text in re.findall(r'case TAKHVOI_(\w+): return "(.*?)";', header)}
        del texts[0]
        self.assertEqual(texts, _takhvoi.TEXTS)
        for name in ("NO_KERNEL", "NOT_LOCKED", "BAD_SIZE", "BAD_FILE", "BAD_IMAGE", "REFUSED", "NOT_ADMITTED", "SHORT_BUFFER"):
            self.assertEqual(numbers[name], getattr(_takhvoi, name))
        declared = set(re.findall(r"uint32_t takhvoi_(\w+)\(", header))
        shown = _takhvoi._SHOWN_CALLS.values()
        called = {name for names in [*_takhvoi._CALLS.values(), *shown, _takhvoi._TEXT_CALLS, _takhvoi._EXPLAIN_CALLS, "abi"] for name in names.split()}
        # What stands on these in the file's calls.
        below = {"close", "update", "save", "revert", "create", "open", "run", "step", "step_bytes", "performed"}
        self.assertEqual(declared - below, called)


if __name__ == "__main__":
    unittest.main()
