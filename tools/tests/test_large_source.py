"""tools/large-source: each shape is taken by the program, runs have as many steps as is said, and bad words are told."""
import subprocess
import tempfile
import unittest

import support
from lib import program, run_shapes, shapes

SMALLEST = 10
PAST_THE_WORDS = (shapes.silent_chain, shapes.own_functions)
WITH_MAIN = (shapes.writes, shapes.base_writes, shapes.objects, shapes.generated)


class LargeSource(unittest.TestCase):
    def test_the_names(self):
        done = support.run("large-source")
        self.assertEqual((done.returncode, done.stderr), (0, ""))
        names = done.stdout.split()
        self.assertEqual(len(names), len(shapes.SHAPES) + len(run_shapes.RUNS))
        self.assertEqual(len(set(names)), len(names))
        self.assertIn("construction-chain", names)

    def test_a_shape_and_its_forms(self):
        done = support.run("large-source", "diamonds", "10")
        self.assertEqual((done.returncode, done.stdout), (0, shapes.diamonds(10)))
        self.assertEqual(support.run("large-source", "diamonds", "10", "--main").stdout, shapes.diamonds(10) + "int main() { S5* p = new S5; print(1); }\n")
        self.assertIn("unsigned long size_L3 = sizeof(L3);\n", support.run("large-source", "diamonds", "--cpp").stdout)
        self.assertIn("void* make_A99() { return new A99; }\n", support.run("large-source", "pairs", "10", "--new").stdout)

    def test_texts_come_up_to_the_limit_on_bytes(self):
        for shape in (shapes.writes, shapes.base_writes, shapes.objects, shapes.comment, shapes.words, shapes.statements, shapes.blocks):
            self.assertEqual([len(shape(part)) for part in (1, 2, 4)], [262_144, 131_072, 65_536], shape.__name__)

    def test_bad_words(self):
        for words in (["nothing"], ["chain", "0"], ["chain", "x"], ["chain", "11"], ["chain", "1", "--cpp", "--new"], ["chain", "--unknown"]):
            done = support.run("large-source", *words)
            self.assertEqual((done.returncode, done.stdout), (2, ""), words)
            self.assertTrue(done.stderr, words)
            self.assertNotIn("Traceback", done.stderr)
        self.assertEqual(support.run("large-source", "comment", "--main").returncode, 1)
        self.assertEqual(support.run("large-source", "--help").returncode, 0)

    @support.needs_program
    def test_each_shape_is_taken(self):
        for shape in shapes.SHAPES:
            source = shape(SMALLEST)
            answer = program.answer(["check"], source)
            if shape in PAST_THE_WORDS and answer == ("limit L7\n", 5):
                continue
            self.assertEqual(answer[1], 0, shape.__name__)
            if shape not in WITH_MAIN and shapes.names_in(source):
                source = shapes.with_main(source)
                self.assertEqual(program.answer(["run"], source), ("1\n", 0), shape.__name__)

    @support.needs_program
    def test_each_run_has_as_many_steps_as_is_said(self):
        for shape in run_shapes.RUNS:
            run = shape(SMALLEST)
            for machine in ("run", "paths"):
                self.assertEqual(program.answer([machine, "--steps", str(run.steps)], run.source)[1], 0, shape.__name__)
                text, status = program.answer([machine, "--steps", str(run.steps - 1)], run.source)
                self.assertEqual((text.splitlines()[-1], status), (f"out of steps {run.steps - 1}", 4), shape.__name__)

    @support.needs_program
    def test_the_whole_of_a_run_is_within_the_budget(self):
        for shape in run_shapes.RUNS:
            self.assertLessEqual(shape(1).steps, 4_000_000, shape.__name__)
        self.assertEqual(program.answer(["run"], run_shapes.casts(SMALLEST).source), ("50000\n", 0))
        self.assertEqual(program.answer(["run"], run_shapes.cross_casts(SMALLEST).source), ("1000\n", 0))

    @support.needs_program
    def test_the_text_comes_up_to_its_limit(self):
        text, status = program.answer(["run", "--steps", "4000000"], run_shapes.text(1).source)
        self.assertEqual((len(text), status), (16_777_200, 0))

    @support.needs_program
    def test_the_generated_source_prints_its_numbers(self):
        self.assertEqual(program.answer(["run"], shapes.generated(SMALLEST)), ("".join(f"{number}\n" for number in range(100)), 0))

    @support.needs("g++")
    def test_the_generated_source_prints_the_same_in_cpp(self):
        with tempfile.TemporaryDirectory() as folder:
            text = shapes.as_program(shapes.generated(SMALLEST))
            subprocess.run(["g++", "-std=c++98", "-w", "-x", "c++", "-o", f"{folder}/built", "-"], input=text, encoding="utf-8", check=True)
            done = subprocess.run([f"{folder}/built"], stdout=subprocess.PIPE, encoding="utf-8", check=True)
        self.assertEqual(done.stdout, "".join(f"{number}\n" for number in range(100)))
