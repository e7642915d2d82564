#!/usr/bin/env python3
"""Tests of credits.py: the terms that it writes for small layouts, its errors, and the files of the repository."""
import json
import os
import pathlib
import shutil
import subprocess
import sys
import tempfile
import unittest

ROOT = os.path.dirname(os.path.dirname(os.path.abspath(__file__)))
TOOL = os.path.join(ROOT, "tools", "credits.py")
sys.path.insert(0, os.path.dirname(TOOL))
import credits  # noqa: E402

FILES = dict(("%s/%s" % (crate, file), answers) for crate in credits.CRATES
             for file, answers in json.loads(pathlib.Path(ROOT, credits.ANSWERS % crate).read_text()).items())


def terms(specs, file="measures/Rows"):
    """The writer of a file's terms, over definitions given by their clauses."""
    heads = "".join("unfoldable pub %s : Layout\n" % one for one in dict.fromkeys(line.split()[0] for line in specs))
    return credits.Terms(credits.read_definitions({"Helpers": heads + "\n".join(specs)}), FILES[file])


def term(layout, *specs, file="measures/Rows"):
    return terms(specs, file).term(credits.parse(layout)).text


class Credits(unittest.TestCase):
    def test_one_after_another(self):
        self.assertEqual(term('word "(" ⨾ get_exp c ⨾ word ")"'), "fixed refl then go.exp c (omega arith) then fixed refl")
        self.assertEqual(term('(text ⨾ path) ⨾ get_ty'), "(texts short then paths short) then go.ty")

    def test_lists_and_groups(self):
        self.assertEqual(term('group (sep ", " (group get_pat))'), "groups (seps (fixed refl) refl (groups go.pat))")
        self.assertEqual(term('for_each (maybe (word " " ⨾ text))'), "each refl (maybes (fixed refl then texts short))")

    def test_definitions_are_unfolded(self):
        writer = terms(['row = group (text ⨾ rest)', 'rest = word "," ⨾ get_ty'])
        self.assertEqual(writer.term(credits.parse("row")).text, "groups (texts short then fixed refl then go.ty)")
        self.assertEqual(writer.opened, ["row", "rest"])

    def test_a_depth_more(self):
        self.assertEqual(term('deepen c ⨾ indent (deeper c) ⨾ get_exp (deeper c)'),
                         "deepened c (omega arith) then at-depth (deeper c) (omega arith) then go.exp (deeper c) (omega arith)")
        self.assertEqual(term('in_end c "let" (get_dec ws) get_str_exp'),
                         "in-ends c (omega arith) _ _ (fixed refl) (get-decs short go low (deeper c) (omega arith)) (go.str_exp (deeper c) (omega arith))")

    def test_levels_by_a_number(self):
        levels = ['levels c zero = get_exp c', 'levels c (suc n) = deepen c ⨾ levels (deeper c) n']
        self.assertEqual(term('levels c 2', *levels),
                         "deepened c (omega arith) then deepened (deeper c) (omega arith) then go.exp (deeper (deeper c)) (omega arith)")

    def test_a_choice(self):
        self.assertEqual(term('choice (inner c)', 'inner c which = slice_index_or (text ∷ (word " " ⨾ get_exp c) ∷ []) which halt'),
                         "choices (λ which. (arm refl (texts short) ▹ arm refl (fixed refl then go.exp c (omega arith)) ▹ no_more).at which)")

    def test_a_token_that_may_be_absent(self):
        self.assertEqual(term('present (word "(" ⨾ path) path'), "presents (fixed refl then paths short) (paths short)")
        self.assertEqual(term('maybe (text ⨾ word " ")'), "maybes (texts short then fixed refl)")

    def test_a_question(self):
        self.assertEqual(term('look is_if_exp get_ty (word " " ⨾ get_pat)'), "looks go.ty (fixed refl then go.pat)")
        self.assertEqual(term('application λ bang symbolic. get_exp c ⨾ when (not bang || symbolic) (word " ")'),
                         "applications (λ bang symbolic. go.exp c (omega arith) then whens (fixed refl) _)")

    def test_fields_followed(self):
        self.assertEqual(term('word "(" ⨾ get_ty ⨾ word ")"', file="measures/TypesFollow"), "before (alone refl) (behind (ty _ d) (alone refl))")
        self.assertEqual(term('dropped left get_ty ⨾ text', file="measures/TypesFollow"), "both (drops (ty true)) (texts short)")

    def test_fields_agreed(self):
        self.assertEqual(term('word "(" ⨾ get_exp c ⨾ word ")"', file="agreement/Rows"), "before fixed (behind (go.exp c) fixed)")
        self.assertEqual(term('get_pat ⨾ (deepen c ⨾ indent (deeper c)) ⨾ get_ty', file="agreement/Rows"),
                         "both go.pat (before (before (deepened c) (at-depth (deeper c))) go.ty)")
        self.assertEqual(term('maybe (dropped left get_ty)', file="agreement/Rows"), "maybes refl go.dropped-ty")

    def test_two_fields_before_a_third(self):
        self.assertEqual(term('op_path ⨾ get_pat', file="agreement/Rows"), "regrouped (both op-paths go.pat)")
        self.assertEqual(term('(text ⨾ word " " ⨾ get_pat) ⨾ get_ty', file="agreement/Rows"),
                         "regrouped (both (both texts (before fixed go.pat)) go.ty)")

    def test_a_token_and_what_is_behind_it(self):
        self.assertEqual(term('operator (get_exp c) skip (word " ") ⨾ get_ty', file="agreement/Rows"),
                         "regrouped (both (operators (go.exp c) skips fixed) go.ty)")
        self.assertEqual(term('present (word "op") skip', file="agreement/Rows"), "presents-last fixed skips")
        self.assertEqual(term('present (word "(" ⨾ get_pat) get_pat', file="agreement/Rows"), "presents (before fixed go.pat) go.pat")

    def test_a_choice_of_fields(self):
        self.assertEqual(term('choice inner', 'inner which = slice_index_or (text ∷ (word " " ⨾ get_ty) ∷ []) which halt', file="agreement/Rows"),
                         "choices (λ which. pick which ((λ h. texts) ▹ (λ h. before fixed go.ty) ▹ no_more))")

    def test_a_name_without_definition(self):
        with self.assertRaisesRegex(credits.Unknown, "arm: row: 'frob' has no definition and no law"):
            term('arm', 'arm = word " " ⨾ row', 'row = group frob')

    def test_cases_of_what_is_not_known(self):
        with self.assertRaisesRegex(credits.Unknown, "goes by cases of an argument that is not known"):
            term('list more', 'more zero = skip', 'more (suc n) = text ⨾ more n')

    def test_the_files_are_what_the_layouts_give(self):
        run = subprocess.run([sys.executable, TOOL, "--check"], capture_output=True, text=True, cwd=ROOT)
        self.assertEqual((run.returncode, run.stderr), (0, ""))

    def test_an_arm_for_each_form(self):
        forms = credits.read_forms("pub data F : Type 0 where\n  OneF TwoF : F\n\nabbrev pub f_forms : List F\nf_forms =\n    OneF ∷ TwoF\n    ∷ []\n")
        writer = terms(['f OneF = word "1"', 'f TwoF = get_ty'])
        writer.definitions.update(forms)
        self.assertEqual(writer.row(credits.parse("map f f_forms")), [("OneF", "arm refl (fixed refl)"), ("TwoF", "arm refl go.ty")])

    def with_arm(self, room, body):
        """A copy of what the tool reads, with one more arm of expressions; how the tool runs there."""
        for folder in ("crates/reader/specs", "crates/layout/specs", "crates/measures", "crates/agreement"):
            shutil.copytree(os.path.join(ROOT, folder), os.path.join(room, folder))
        forms = pathlib.Path(room, "crates/reader/specs/Forms.antt")
        text = forms.read_text()
        self.assertEqual((text.count(" FnExp : ExpForm"), text.count("∷ FnExp\n")), (1, 1))
        forms.write_text(text.replace(" FnExp : ExpForm", " FnExp BangExp : ExpForm").replace("∷ FnExp\n", "∷ FnExp ∷ BangExp\n"))
        spec = pathlib.Path(room, "crates/layout/specs/Exp.antt")
        spec.write_text(spec.read_text().replace("  exp c FnExp =", "  exp c BangExp = %s\n  exp c FnExp =" % body))
        return lambda *words: subprocess.run([sys.executable, TOOL, *words], capture_output=True, text=True, cwd=room)

    def test_a_new_arm(self):
        with tempfile.TemporaryDirectory() as room:
            run = self.with_arm(room, 'word " -- " ⨾ get_exp c')
            self.assertNotEqual(run("--check").returncode, 0)
            self.assertIn("run 'python3 tools/credits.py'", run("--check").stderr)
            self.assertEqual((run().returncode, run("--check").returncode), (0, 0))
            for crate, arm in ("measures", "arm refl (fixed refl then go.exp c (omega arith))"), ("agreement", "(λ h. before fixed (go.exp c))"):
                rows = pathlib.Path(room, credits.PROOFS % (crate, "Rows")).read_text()
                self.assertIn("▹ %s  -- BangExp\n        ▹ no_more" % arm, rows)

    def test_a_new_arm_that_is_not_regular(self):
        with tempfile.TemporaryDirectory() as room:
            run = self.with_arm(room, 'list (exp_semi_more c false)')()
            self.assertNotEqual(run.returncode, 0)
            self.assertIn("exps: exp: exp_semi_more: it goes by cases of an argument that is not known", run.stderr)
            self.assertIn("Irregular.antt", run.stderr)

    def test_usage(self):
        run = subprocess.run([sys.executable, TOOL, "--chek"], capture_output=True, text=True, cwd=ROOT)
        self.assertNotEqual(run.returncode, 0)
        self.assertIn("usage", run.stderr)


if __name__ == "__main__":
    unittest.main()
