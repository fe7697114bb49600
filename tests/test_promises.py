"""Promises that no proof builds on, so that they could be dropped or emptied unseen: each is expected, by name or to the letter."""

import re
import unittest

from believed import border, contract, file_of, modules_of_contract
from declared import ROOT, antt_file, antt_files, text_of
from letters import DEFINED
from letters_of_contracts import PROMISED
from letters_of_pins import SAID
from letters_of_supposed import SUPPOSED
from unused import without_comments

# What each function at the border ensures, to the letter, and the files of specs that its names come from. What a function only reads
# is `now`, and what it writes is `old` before and `new` behind.
ARRAYS = "own.now matrix.now right_hand.now mean.now"
WRITTEN = "own.old matrix.old right_hand.old mean.old"
SWEPT = "own.now matrix.now right_hand.now mean.old"
LENT = f"(held_at last closeness total {ARRAYS})"
OF_C = f"(held_in held.now {ARRAYS})"
BUFFER = "buffer.old result buffer.new"
EMPTY = "state_of (held_by result) ≡ State.empty"
OBSERVED = "(observations_at ticks.old weights.old variances.old struck.old)"
OPENS = f"Opens (held_in held.old {WRITTEN}) {OBSERVED} file.now result (held_in held.new {WRITTEN}) {OBSERVED}"
KEPT = "ticks.old weights.old struck.old"
STRIKES = f"StrikesLent channel year column (held_in held.old {WRITTEN}) {KEPT} result (held_in held.new {WRITTEN}) {KEPT}"
WEIGHS = "WeighsLent ticks.now weights.now struck.now"
PROJECTS = "ProjectsLent ticks.now variances.now"


def behind_result(said: str) -> str:
    """What is written is `new` behind the answer."""
    before, result, behind = said.partition(" result ")
    return before + result + behind.replace(".old", ".new")


CONTRACTS = {
    "empty": (EMPTY, "holding/State session/Value definitions/Machine"),
    "open": (
        "Opens (held_by s) s.observations file.now result.answer (held_by result.session) result.session.observations",
        "opening/Opens session/Value",
    ),
    "judge": ("Judges (held_by s) lent.now result", "judging/Judges session/Value"),
    "sweep": ("Sweeps (held_by s) n result.answer (held_by result.session)", "sweeping/Sweeps session/Value"),
    "read": (f"Reads (held_by s) {BUFFER}", "writing/Writes session/Value"),
    "page": (f"Pages (held_by s) {BUFFER}", "writing/Writes session/Value"),
    "ultimate": ("Projects s.observations (held_by s) year result", "projecting/Projects session/Value"),
    "strike": (
        "Strikes (step channel year column) (held_by s) s.observations result.answer (held_by result.session) "
        "result.session.observations",
        "striking/Strikes session/Value definitions/Strikes",
    ),
    "residues": (f"Weighs s.observations (held_by s) lent.now {BUFFER}", "weighing/Weighs session/Value"),
    "figures": ("Shows (held_by s) result", "showing/Shows session/Value"),
    "close": (EMPTY, "holding/State session/Value definitions/Machine"),
    "number": ("result ≡ number_of self", "layout/Refusals"),
    "at": ("result ≡ record { reason = self; place = place }", ""),
    "open_lent": (behind_result(OPENS), "opening/Opens holding/State observations/Arrays"),
    "judge_lent": (f"Judges {LENT} lent.now result", "judging/Judges holding/State"),
    "sweep_lent": (
        behind_result(f"Sweeps (held_at last closeness total.old {SWEPT}) n result (held_at last closeness total.old {SWEPT})"),
        "sweeping/Sweeps holding/State",
    ),
    "read_lent": (f"Reads {LENT} {BUFFER}", "writing/Writes holding/State"),
    "page_lent": (f"Pages {LENT} {BUFFER}", "writing/Writes holding/State"),
    "ultimate_lent": (f"{PROJECTS} {LENT} year result", "projecting/Projects holding/State"),
    "strike_lent": (behind_result(STRIKES), "striking/Strikes holding/State"),
    "residues_lent": (f"{WEIGHS} {LENT} lent.now {BUFFER}", "weighing/Weighs holding/State"),
    "figures_lent": (f"Shows {LENT} result", "showing/Shows holding/State"),
    "figures_put": (f"Puts {LENT} result figures.new", "showing/Shows holding/State"),
    "row": ("result.now ≡ row_part s.now channel year", "definitions/Machine"),
    "row_told": ("told result ≡ row_check s.now channel year", "definitions/Refusals layout/Refusals"),
    "desk_open_lent": (behind_result(OPENS), "desk/Calls holding/State observations/Arrays"),
    "desk_judge_lent": (f"Judges {OF_C} lent.now result", "desk/Calls holding/State"),
    "desk_sweep_lent": (
        behind_result(f"Sweeps (held_in held.old {SWEPT}) n result (held_in held.old {SWEPT})"), "desk/Calls holding/State",
    ),
    "desk_read_lent": (f"Reads {OF_C} {BUFFER}", "desk/Calls holding/State"),
    "desk_page_lent": (f"Pages {OF_C} {BUFFER}", "desk/Calls holding/State"),
    "desk_ultimate_lent": (f"{PROJECTS} {OF_C} year result", "desk/Calls holding/State"),
    "desk_strike_lent": (behind_result(STRIKES), "desk/Calls holding/State"),
    "desk_residues_lent": (f"{WEIGHS} {OF_C} «record».now {BUFFER}", "desk/Calls holding/State"),
    "desk_figures_lent": (f"Shows {OF_C} result", "desk/Calls holding/State"),
    "desk_close_lent": ("Closes held.new", "desk/Calls"),
    "desk_row": ("ShowsRow file.now channel year result", "desk/Calls"),
    "desk_size": ("result ≡ size_of array", "desk/Sizes"),
    "list": ("take result.end result.bytes ≡ listing given.now", "definitions/Programs"),
    "board": ("take result.end result.bytes ≡ board_page given.now", "definitions/Programs"),
}

# In which no letter counts.
STRING = re.compile(r'"(?:[^"\\]|\\.)*"')

# What some ensure besides: a program, that the end of what it prints is inside the bytes; sweep of a value, that its observations stay.
INSIDE = " ensures { (result.end ≤ length result.bytes) × (result.end ≡ length (take result.end result.bytes)) }"
BESIDES = {"list": INSIDE, "board": INSIDE, "sweep": " ensures { result.session.observations ≡ s.observations }"}

# What is drawn once more from contracts and laws, so that none can be weakened unseen. Nothing uses it, so each is expected here, with a
# bracket around whatever stands in a module: what a module supposes is supposed of all that stands in it.
PINNED = {
    "laws/Pinned":
        "( Each Worth nearly_least near strictly_least worth Near room limits m u some exact half rounded ( at_the_bound near_passes ) "
        ") ( Machine opens judges judges_alone sweeps reads reads_alone pages pages_alone ultimates strikes residues_by residues_state "
        "shows tells closes machine ) in_table same_outcomes row_empty loss_around",
    "laws/PinnedChains":
        "by_year u Figured own_weights entries right_hands loss_of_u loss_of_half_u figured ( by_year_bounded by_year_carried ( "
        "by_year_worth by_year_rounding ) )",
    "laws/PinnedAmounts":
        "amount_taken ( up_to up_to_2^44 ( as_before opened_as_before row_as_before ) same_to_2^40 ( logarithm_to paid_step_to "
        "incurred_step_to last_ratio_to paid_sum_to incurred_sum_to own_side_of_phi_to own_side_of_psi_to ratios_to right_hand_to "
        "residue_to divided_to ) )",
    "laws/PinnedLogarithms": "logarithm_bounded logarithm_nearest larger_logarithm one_tick_at_most largest_logarithm",
    "laws/PinnedPage": "( page_bytes ( name_on_page index_on_page ticks_on_page weight_on_page spaces_on_page ) ) never_shared",
    "laws/PinnedUltimate": "( N M figure ( exact weighed only ) )",
    "laws/PinnedPriors":
        "prior_variance_taken ( ( accepted_still opened_still row_still ) same_with_priors phi_alone psi_alone phi_owned psi_owned )",
    "laws/Number16":
        "( one_to_ten accepted_exactly positive check16 zero_refused no_zero_clear ) refuses_no_bytes ( open_with16 alike_without_16 "
        "never_16 )",
    "laws/PinnedStrikes":
        "( ( phi_left right_hand_phi_left ) psi_left right_hand_psi_left ) ( paid_term_leaves incurred_term_leaves ) ( reached_accepted "
        "reached_paid reached_incurred )",
    "laws/PinnedResidues": "( residue_of_phi residue_of_psi residue_by_matrix residue_judged ) reached_residues",
    "row_starts/Pinned": "( sixteen cells_counted none_counted )",
    "holding/Pinned": "( open-file ( reached_open reached_holds ) )",
    "laws/Columns":
        "OwnOfPhi ( ) ( ( own_of_phi firsts_of_phi ) ( own_of_psi firsts_of_psi ) ) ( ( own_phi right_hand_phi ) own_psi right_hand_psi )",
    "opening/Pinned": "open_refused ( opened_keeps opened_holds ) as_with_16",
    "judging/Pinned": "( judge_worth judge_rounded )",
    "sweeping/Pinned": "( sweep_worth sweep_rounded ) sweep_refused",
    "writing/Pinned": "( write_worth )",
    "projecting/Pinned": "( ultimate_exact ultimate_worth )",
    "weighing/Pinned": "( residues_refused residues_written )",
    "striking/Pinned": "strike_refused ( struck_keeps struck_holds )",
    "showing/Pinned":
        "( none_shown ( shown_numbers shown_own shown_entry shown_right_hand ) ( numbers_of_file own_of_file entry_of_file "
        "right_hand_of_file ) ) none_put open_put",
    "session/Pinned": "held_whole",
    "telling/Pinned":
        "refusal Pinned opened_file refused_file written_mean struck_step passed_mean failing_mean refused_record settled_mean going_mean "
        "refused_sweeps central_ultimate refused_ultimate shown_row row_of_F refused_row shown_system refused_system pinned",
    "desk/Pinned":
        "refusal ( ( open_told open_state open_refused open_numbered ) ( sweep_told_lem sweep_state sweep_refused sweep_numbered ) "
        "closed ) ( ( "
        "judge_told_lem judge_numbered ) ( write_told write_buffer write_numbered ) page_closed ( read_record page_written page_short ) ) "
        "( none_shown figures_numbered ( shown_numbers shown_own shown_entry shown_right_hand ) ( numbers_of_file own_of_file "
        "entry_of_file right_hand_of_file ) ) ( row_told row_shows row_inside row_empty row_numbered ) ( ( judge_worth judge_rounded ) "
        "( sweep_worth sweep_rounded ) write_worth )",
    "desk/PinnedSession": "( opens_all strikes_all judges_all sweeps_all reads_all pages_all projects_all weighs_all closes_all )",
    "desk/PinnedResidues":
        "refusal ( residues_told residues_numbered residues_closed ( residues_refused residues_short residues_written ) residues_of_file )",
    "desk/PinnedUltimate":
        "refused_with ( ultimate_told_lem ultimate_numbered ultimate_closed ( ultimate_failing ultimate_year_0 ultimate_behind "
        "ultimate_exact ) "
        "ultimate_worth ( ultimate_of_file ) )",
    "desk/PinnedStrikes":
        "refusal ( strike_told strike_numbered strike_state strike_refused strike_closed ( no_channel no_paid_step no_incurred_step "
        "struck_already last_left paid_struck incurred_struck ) )",
}

# The examples that document 01 marks with a star ("Figures to agree on").
STARRED = {
    "log_of_1", "log_of_2^40", "log_of_3", "weight_of_2^18", "weight_of_2^46", "F_accepted", "F_p", "F_q", "F_g", "F_own", "F_matrix",
    "F_right_hand", "zero_residues", "zero_residues_pass", "residue_at_the_bound", "one_tick_passes", "two_ticks_fail", "part_1_fails",
    "part_1_passes_with_e_2",
}

# F without priors, and the prior variances that are refused beside them.
WITHOUT_PRIORS = {
    "weight_of_0", "flat_accepted", "flat_own", "flat_matrix", "flat_right_hand", "flat_listing", "flat_start",
    "flat_mean_above", "flat_first", "flat_last", "prior_variance_1", "prior_variance_below", "prior_variance_above",
}

# The largest amounts, and those that are refused.
OF_THE_AMOUNTS = {
    "log_of_2^44", "largest_accepted", "largest_right_hand", "beside_1_right_hand", "paid_first_above", "paid_last_above",
    "incurred_first_above", "incurred_last_above", "amount_0",
}

# F's central ultimate, the refusals of its call, and others with every number another.
OF_ULTIMATES = {
    "F_ultimate", "F_ultimate_half", "F_ultimate_closed", "F_ultimate_failing", "F_ultimate_year_0", "F_ultimate_year_2",
    "small_ultimate_1", "small_ultimate_2", "three_ultimates", "three_refusals",
}

# F without x_(0,0), files with other struck steps, the refusals of a strike in their order, and what it leaves.
OF_STRIKES = {
    "struck_own", "struck_matrix", "struck_right_hand", "struck_first", "struck_second", "three_own", "three_paid_struck",
    "three_incurred_struck", "strike_closed", "strike_channel", "strike_behind", "strike_behind_incurred", "strike_alone", "strike_again",
    "strike_last", "strike_done", "strike_refused", "struck_forgotten",
}

# Residues by observations: of F, of F without priors and without x_(0,0), with J = 2; their call, and its refusals in their order.
OF_RESIDUES = {
    "observed_zero", "observed_at_the_bound", "observed_ratio", "observed_psi", "observed_flat", "observed_struck", "observed_three",
    "residues_closed", "residues_length_lem", "residues_version", "residues_years", "residues_part", "residues_short", "residues_written",
    "residues_in_session",
}

# What a session keeps of F besides its figures, and with a step struck.
OF_A_SESSION = {"F_observed", "struck_kept", "struck_marks"}

# Those of document 02's page and of its call, and the listing beside them.
OF_THE_PAGE = {
    "F_page", "widest_line", "narrowest_line", "F_page_closed", "F_page_failing", "F_page_short", "F_page_written", "F_page_behind",
    "F_board_page", "F_listing",
}


def outline(text: str) -> list[str]:
    """What is promised, in its order, with a bracket where a module begins and where it ends."""
    told, opened = [], []
    for indent, module, name in re.findall(r"^( *)(?:(module) _|(?:abbrev )?pub (?:record )?(\S+))", text, re.MULTILINE):
        while opened and len(indent) <= opened[-1]:
            told += ")"
            opened.pop()
        told += ["("] if module else [name]
        opened += [len(indent)] if module else []
    return told + [")"] * len(opened)


def lines_of(path: str) -> str:
    """A text in one line, with a bar before whatever stands in no module, and at the end."""
    return " ".join(re.sub(r"\n(?=\S)|$", " | ", STRING.sub('""', without_comments(ROOT / path))).split())


class Promises(unittest.TestCase):
    def test_contracts_at_the_border(self) -> None:
        """Each stands alone in its contract, with nothing before it that a call would have to meet."""
        self.assertEqual({name for _, name in border()}, set(CONTRACTS))
        for function in border():
            said, files = CONTRACTS[function[1]]
            clauses = re.sub(r"\bensures \w+ {", "ensures {", " ".join(contract(function)[1].split()))  # whatever a clause is called
            self.assertEqual(clauses, f"ensures {{ {said} }}{BESIDES.get(function[1], '')}", function)
            named = {file_of(module) for module in modules_of_contract(function)} - {None}
            self.assertEqual(named, {antt_file(module) for module in files.split()}, function)

    def test_what_is_pinned(self) -> None:
        for file, names in PINNED.items():
            self.assertEqual([name for path in antt_files(file) for name in outline(text_of(path))], names.split(), file)

    def test_what_is_said_to_the_letter(self) -> None:
        for file, said in (DEFINED | PROMISED | SAID).items():
            lines = " ".join(map(lines_of, antt_files(file)))
            for words in said:
                self.assertTrue(words in lines, f"{file}: {words}")

    def test_what_pins_suppose(self) -> None:
        for file in PINNED:
            text = "\n".join(without_comments(ROOT / path) for path in antt_files(file))
            modules = re.findall(r"^ *module _ (.*?) where$", text, re.MULTILINE | re.DOTALL)
            self.assertEqual([" ".join(module.split()) for module in modules], [*SUPPOSED.get(file, ())], file)
            self.assertEqual(len(re.findall(r"\bmodule\b", text)), len(modules), file)

    def test_a_session_is_private(self) -> None:
        fields = re.search(r"pub struct Session \{(.*?)\}", text_of("crates/session/src/lib.rt"), re.DOTALL)[1]
        self.assertNotRegex(fields, r"\bpub\b")

    def test_cases_of_the_joint_table(self) -> None:
        table = text_of(antt_file("definitions/JointTable")).split("pub record JointTable")[1].split("pub joint_table")[0]
        expected = STARRED | OF_A_SESSION | OF_THE_PAGE | WITHOUT_PRIORS | OF_THE_AMOUNTS | OF_ULTIMATES | OF_STRIKES | OF_RESIDUES
        self.assertEqual(set(re.findall(r"^  pub (\S+) :", table, re.MULTILINE)), expected)

    def test_every_call_is_in_the_specification(self) -> None:
        for module in ("calls", "state"):
            for name in re.findall(r"^pub fn (\w+)", text_of(f"crates/session/src/{module}.rt"), re.MULTILINE):
                self.assertIn(f"| `session::{module}::{name}` |", text_of("docs/SPECIFICATION.md"))

    def test_the_script_of_calls_has_no_last_turn(self) -> None:
        self.assertIn("for _ in 0..u64::MAX {", text_of("crates/calls/src/main.rt"))

    def test_nothing_is_left_out_of_the_tests(self) -> None:
        for command in (
            "python3 tests/suite.py tests", "python3 tests/documents.py", "python3 tests/believed.py",
            "python3 tests/unused.py", "python3 tests/suite.py reference",
            "python3 reference vectors --check", "python3 tests/edits_across_crates.py", "rt ci |", "python3 tests/compare_programs.py",
            "python3 tests/run_vectors.py", "./build", "tests/c/run", "tests/c/install",
            "python3 tests/suite.py python/tests", "python3 tests/snippets.py",
        ):
            self.assertRegex(text_of("test"), rf"(?m)^ *(?:if .*; then )?{re.escape(command)}")
        for step in ("replay", "list", "write"):
            self.assertIn(f'\n{step}\n{step} "${{watched[@]}}"\n', text_of("tests/c/run"))
        for step in ("desk_test", "ultimate_test", "strike_test", "residues_test", "spoiled_test"):
            self.assertRegex(text_of("tests/c/run"), rf'(?m)^\w+=\$\("\$built/{step}"')
            self.assertIn(f'\n"${{watched[@]}}" "$built/{step}"', text_of("tests/c/run"))
        for step in ("header_test_c", "header_test_cpp"):
            self.assertIn(f'\n"$built/{step}"\n', text_of("tests/c/run"))


if __name__ == "__main__":
    unittest.main()
