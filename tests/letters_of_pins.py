"""What pins say, to the letter, as `letters` has it: what is said of logarithms, of amounts, of files without a prior, of own weights and
right-hand sides in document 01's words, of chains that no file gives, of the central ultimate, of struck steps, of number 16, of the
numbers that there are, of residues by observations and of a session as a whole, which no contract has.
"""

SAID = {
    "laws/PinnedLogarithms": (
        "| pub logarithm_bounded : (a : ℕ) → 1 ≤ a → a < 2 ^ 64 → (2 ^ (2 * logarithm a) ≤ 2 * a ^ 2097152) × (2 * a ^ 2097152 < 2 ^ (2 "
        "* logarithm a + 3)) | logarithm_bounded",
        "| pub logarithm_nearest : (a : ℕ) → 1 ≤ a → a < 2 ^ 64 → 511 * a ^ 2097152 < 512 * 2 ^ (2 * logarithm a + 1) | "
        "logarithm_nearest",
        "| pub larger_logarithm : (a b : ℕ) → 1 ≤ a → a ≤ b → b < 2 ^ 64 → logarithm a ≤ logarithm b | larger_logarithm",
        "| pub one_tick_at_most : (a : ℕ) → let y : ℕ = start_from (highest_bit a) a in logarithm a ≡ highest_bit a * 1048576 + bits_of "
        "20 y 0 + bits_of 21 y 0 % 2 | one_tick_at_most",
        "| pub largest_logarithm : (a : ℕ) → 1 ≤ a → a ≤ 2 ^ 44 → logarithm a ≤ 46137344 | largest_logarithm",
    ),
    "laws/Number16": (
        "| module _ (f : Bytes) where abbrev pub one_to_ten : Check one_to_ten = check1 f then check2 f then check3 f then check4 f "
        "then check5 f then check6 f then check7 f then check8 f then check9 f then check10 f pub accepted_exactly",
        "pub accepted_exactly : (accepted f ≡ true) ↔ (one_to_ten ≡ clear) unfolding",
        "pub positive : one_to_ten ≡ clear → (k : ℕ) → k < 2 * last_year f + 1 → pos 0 <ℤ matrix (chain_of f) k k unfolding",
        "pub zero_refused : (k : ℕ) → k < 2 * last_year f + 1 → matrix (chain_of f) k k ≡ pos 0 → check16 ≡ refuses 16 0 zero_refused",
        "pub no_zero_clear : ((k : ℕ) → k < 2 * last_year f + 1 → matrix (chain_of f) k k ≢ pos 0) → check16 ≡ clear no_zero_clear",
        "| pub refuses_no_bytes : check16 [] ≡ refuses 16 0 | unfolding",
        "| module _ (X : Type 0) (K : Keeping X) where abbrev pub open_with16 : State X → Bytes → Outcome X open_with16 empty f = "
        "open_unless K (one_to_ten f then check16 f) f open_with16 (holds x μ total) f = answers (holds x μ total) (refused 22 0) pub "
        "alike_without_16",
        "pub alike_without_16 : (st : State X) (f : Bytes) → open_with16 st f ≡ open_call K st f unfolding",
        "pub never_16 : (st : State X) (call : Call) (place : ℕ) → (outcome K st call).answer ≢ refused 16 place never_16",
    ),
    "laws/Pinned": (
        "| pub in_table : (X : Type 0) (K : Keeping X) (st : State X) (call : Call) (number place : ℕ) → (outcome K st call).answer ≡ "
        "refused number place → ((1 ≤ number) × (number ≤ 15)) ⊎ ((21 ≤ number) × (number ≤ 27)) | in_table",
        "| pub same_outcomes : (calls : List Call) (st : State StruckFile) → outcomes in_session (map_state kept_of st) calls ≡ map "
        "(map_outcome kept_of) (outcomes the_file st calls) | same_outcomes",
        "pub ultimates : (year : ℕ) → outcome K st (ultimate year) ≡ record { answer = ultimate_call K.figures K.latest st year; state "
        "= st; buffer = [] } pub strikes",
        "pub strikes : (s : Step) → outcome K st (strike s) ≡ strike_call K st s pub residues_by : (r b : Bytes) → outcome K st "
        "(residues r b) ≡ residues_call K.chain st r b pub residues_state : (r b : Bytes) → (outcome K st (residues r b)).state ≡ st "
        "pub shows",
    ),
    "laws/PinnedUltimate": (
        "| module _ (f : Bytes) (i : ℕ) (u : ℕ → ℤ) where abbrev J : ℕ J = last_year f abbrev k : ℕ k = J - i abbrev pub N : ℕ N = "
        "total i (λ m. variance_of f (k + 1 + m)) abbrev pub M : ℕ M = total i (λ n. variance_of f (J + 1 + (k + n))) abbrev pub figure "
        ": ℤ figure = pos M *ℤ (pos (logarithm (paid f i k)) +ℤ sum i (λ m. u (k + 1 + m))) +ℤ pos N *ℤ (pos (logarithm (incurred f i "
        "k)) +ℤ sum i (λ n. u (J + 1 + (k + n)))) module _ (taken : accepted f ≡ true) (from : 1 ≤ i) (to : i ≤ J) where pub exact : "
        "let r : Ultimate = ultimate_of J (latest_of f) i u in (r.floor *ℤ pos (N + M) +ℤ pos r.remainder ≡ figure) × (r.remainder < N "
        "+ M) × (r.divisor ≡ N + M) unfolding",
        "pub weighed : N + M ≡ ratio_variance f k unfolding",
        "pub only : (floor : ℤ) (remainder : ℕ) → floor *ℤ pos (N + M) +ℤ pos remainder ≡ figure → remainder < N + M → let r : Ultimate "
        "= ultimate_of J (latest_of f) i u in (floor ≡ r.floor) × (remainder ≡ r.remainder) unfolding",
    ),
    "projecting/Pinned": (
        "pub ultimate_exact : (F : Figures) (μ : List ℤ) (count : ℕ) → state_of s ≡ holds F μ count → (u.floor *ℤ pos u.divisor +ℤ pos "
        "u.remainder ≡ numerator F.last (latest_with o F) year (part μ)) × (u.remainder < u.divisor) × (u.divisor ≡ both_variances "
        "F.last (latest_with o F) year) ultimate_exact",
        "pub ultimate_worth : (f : StruckFile) (μ : List ℤ) (count : ℕ) → HoldsFile s f μ count → {e : ℕ} → closeness f.file ≡ e → "
        "Worth f e (part μ) ultimate_worth",
    ),
    "telling/Pinned": (
        "pub central_ultimate : (floor : ℤ) (remainder divisor : ℕ) → ultimate_told (ultimate_is (record { floor = floor; remainder = "
        "remainder; divisor = divisor })) ≡ record { refusal = refusal 0 0; floor = floor; remainder = remainder; divisor = divisor } "
        "pub refused_ultimate : (number place : ℕ) → ultimate_told (refused number place) ≡ record { refusal = refusal number place; "
        "floor = pos 0; remainder = 0; divisor = 0 } pub shown_row",
        "pub struck_step : refusal_told struck_out ≡ refusal 0 0 pub",
    ),
    "desk/PinnedUltimate": (
        "| abbrev pub refused_with : ℕ → Projected | refused_with number = record { refusal = record { number = number; place = 0 }; floor "
        "= pos 0; remainder = 0; divisor = 0 } |",
        "pub ultimate_told_lem : r ≡ ultimate_told (projects_to o (state_of s) year) ultimate_told_lem",
        "pub ultimate_numbered : (place : ℕ) → projects_to o (state_of s) year ≢ refused 0 place ultimate_numbered",
        "pub ultimate_closed : state_of s ≡ empty → r ≡ refused_with 21 unfolding",
        "pub ultimate_failing : passes F (part μ) ≡ false → r ≡ refused_with 24 unfolding",
        "pub ultimate_year_0 : passes F (part μ) ≡ true → year ≡ 0 → r ≡ refused_with 25 unfolding",
        "pub ultimate_behind : passes F (part μ) ≡ true → F.last < year → r ≡ refused_with 25 unfolding",
        "pub ultimate_exact : r.refusal.number ≡ 0 → (r.floor *ℤ pos r.divisor +ℤ pos r.remainder ≡ numerator F.last (latest_with o F) "
        "year (part μ)) × (r.remainder < r.divisor) × (r.divisor ≡ both_variances F.last (latest_with o F) year) ultimate_exact",
        "pub ultimate_worth : (f : StruckFile) (μ : List ℤ) (count : ℕ) → HoldsFile s f μ count → {e : ℕ} → closeness f.file ≡ e → "
        "r.refusal.number ≡ 0 → Worth f e (part μ) ultimate_worth",
        "pub ultimate_of_file : accepted f.file ≡ true → (r.refusal ≡ record { number = 0; place = 0 }) × (r.floor *ℤ pos (N f.file "
        "year (part μ) + M f.file year (part μ)) +ℤ pos r.remainder ≡ figure f.file year (part μ)) × (r.remainder < N f.file year (part "
        "μ) + M f.file year (part μ)) × (r.divisor ≡ N f.file year (part μ) + M f.file year (part μ)) ultimate_of_file",
    ),
    "laws/PinnedChains": (
        "| abbrev pub by_year : ℕ → Chain | by_year J = record { last = J; p = λ i j. 3 * i + 7 * j; q = λ i j. 17 * i + 19 * j + 2; s "
        "= λ j. 2 * j; t = λ j. 5 * j; g = λ d. 2 + d; x = λ i j. pos (100 * i) -ℤ pos (30 * j + 7); z = λ i j. pos (8 * j) -ℤ pos (5 * "
        "i + 1); y = λ i. pos (10 * i) -ℤ pos 13; prior_Φ = λ j. pos (1000 * j); prior_Ψ = λ j. pos 0 -ℤ pos (2000 * j + 3); | } | "
        "abbrev pub u : Vector | u = part (pos 1 ∷ negsuc 1 ∷ pos 3 ∷ negsuc 3 ∷ pos 5 ∷ []) | pub record Figured : Type 0 where pub "
        "own_weights : (figures_from (by_year 2) 1).own ≡ 9 ∷ 19 ∷ 18 ∷ 21 ∷ 26 ∷ [] pub entries : (figures_from (by_year 2) 1).matrix "
        "≡ (pos 9 ∷ pos 0 ∷ pos 0 ∷ pos 0 ∷ pos 0 ∷ []) ∷ (pos 0 ∷ pos 21 ∷ pos 2 ∷ negsuc 1 ∷ negsuc 1 ∷ []) ∷ (pos 0 ∷ pos 2 ∷ pos 23 "
        "∷ negsuc 1 ∷ negsuc 4 ∷ []) ∷ (pos 0 ∷ negsuc 1 ∷ negsuc 1 ∷ pos 23 ∷ pos 2 ∷ []) ∷ (pos 0 ∷ negsuc 1 ∷ negsuc 4 ∷ pos 2 ∷ pos "
        "31 ∷ []) ∷ [] pub right_hands : (figures_from (by_year 2) 1).right_hand_side ≡ pos 1437 ∷ pos 2385 ∷ pos 7067 ∷ negsuc 129 ∷ "
        "negsuc 9872 ∷ [] pub loss_of_u : loss (by_year 2) u ≡ pos 38486644 pub loss_of_half_u : loss_times (by_year 2) 2 u ≡ pos "
        "153818933 | |",
        "| pub figured : Figured |",
        "pub by_year_bounded : Bounded (by_year J) by_year_bounded",
        "pub by_year_carried : Carried (by_year J) by_year_carried",
        "pub by_year_worth : (μ : Vector) → passes (figures_from (by_year J) e) μ ≡ true → Guarantee (by_year J) e μ by_year_worth μ =",
        "pub by_year_rounding : RoundingPasses (by_year J) e by_year_rounding =",
    ),
    "laws/Columns": (
        "| module _ (f : Bytes) (j : ℕ) where abbrev J : ℕ J = last_year f abbrev c : Chain c = chain_of f module _ (below : j ≤ J) "
        "where pub own_phi : own c j ≡ weight (prior_variance f j) + (J - j + 1) * weight (σ² f j) unfolding",
        "pub right_hand_phi : right_hand_side c j ≡ pos (weight (prior_variance f j)) *ℤ prior_mean f j +ℤ pos (weight (σ² f j)) *ℤ sum "
        "(J - j + 1) (λ i. paid_step f i j) +ℤ ratios_of_last c j unfolding",
        "pub own_psi : own c (psi_index J j) ≡ weight (prior_variance f (psi_index J j)) + (J - j) * weight (τ² f j) unfolding",
        "pub right_hand_psi : right_hand_side c (psi_index J j) ≡ pos (weight (prior_variance f (psi_index J j))) *ℤ prior_mean f "
        "(psi_index J j) +ℤ pos (weight (τ² f j)) *ℤ sum (J - j) (λ i. incurred_step f i j) -ℤ ratios_of_last c (j + 1) unfolding",
    ),
    "laws/PinnedPriors": (
        "| pub prior_variance_taken : (v : ℕ) → (good_prior_variance v ≡ true) ↔ ((v ≡ 0) ⊎ ((262144 ≤ v) × (v ≤ 70368744177664))) | "
        "prior_variance_taken v =",
        "| module _ (f : Bytes) where abbrev J : ℕ J = last_year f abbrev c : Chain c = chain_of f abbrev with_priors : Check "
        "with_priors = check1 f then check2 f then check3 f then check4 f then check5 f then check6 f then fields (λ k. within 262144 "
        "70368744177664 (prior_variance f k)) 7 (prior_variance_at J) 0 (2 * J + 1) then check8 f then check9 f then check10 f module _ "
        "(was : is_clear with_priors ≡ true) where pub accepted_still :",
        "pub accepted_still : accepted f ≡ true accepted_still =",
        "pub opened_still : (X : Type 0) (K : Keeping X) → open_unless K with_priors f ≡ open_call K empty f opened_still =",
        "pub row_still : (channel year : ℕ) → with_priors then unless (leb channel 1) 14 0 then unless (leb year J) 15 0 ≡ row_check f "
        "channel year row_still =",
        "pub same_with_priors : ((k : ℕ) → k < 2 * J + 1 → prior_variance f k ≢ 0) → with_priors ≡ file_check f same_with_priors =",
        "pub phi_owned : accepted f ≡ true → (j : ℕ) → j ≤ J → (1 ≤ weight (σ² f j)) × (weight (σ² f j) ≤ own c j) phi_owned =",
        "pub psi_owned : accepted f ≡ true → (j : ℕ) → j < J → (1 ≤ weight (τ² f j)) × (weight (τ² f j) ≤ own c (J + 1 + j)) psi_owned "
        "=",
        "pub phi_alone : (j : ℕ) → j ≤ J → prior_variance f j ≡ 0 → (own c j ≡ (J - j + 1) * weight (σ² f j)) × (right_hand_side c j ≡ "
        "pos (weight (σ² f j)) *ℤ sum (J - j + 1) (λ i. paid_step f i j) +ℤ ratios_of_last c j) phi_alone j below none =",
        "pub psi_alone : (j : ℕ) → j < J → prior_variance f (J + 1 + j) ≡ 0 → (own c (J + 1 + j) ≡ (J - j) * weight (τ² f j)) × "
        "(right_hand_side c (J + 1 + j) ≡ pos (weight (τ² f j)) *ℤ sum (J - j) (λ i. incurred_step f i j) -ℤ ratios_of_last c (j + 1)) "
        "psi_alone j below none =",
    ),
    "laws/PinnedAmounts": (
        "| pub amount_taken : (a : ℕ) → (good_amount a ≡ true) ↔ ((1 ≤ a) × (a ≤ 17592186044416)) | amount_taken a =",
        "| module _ (f : Bytes) where abbrev J : ℕ J = last_year f abbrev c : Chain c = chain_of f abbrev pub up_to : ℕ → Check up_to "
        "limit = check1 f then check2 f then check3 f then check4 f then check5 f then check6 f then check7 f then check8 f then fields "
        "(λ k. within 1 limit (amount f k)) 9 (amount_at J) 0 (2 * cells J) then check10 f pub up_to_2^44 :",
        "pub up_to_2^44 : up_to 17592186044416 ≡ file_check f up_to_2^44 =",
        "pub as_before : accepted f ≡ true as_before =",
        "pub opened_as_before : (X : Type 0) (K : Keeping X) → open_unless K (up_to 1099511627776) f ≡ open_call K empty f "
        "opened_as_before =",
        "pub row_as_before : (channel year : ℕ) → up_to 1099511627776 then unless (leb channel 1) 14 0 then unless (leb year J) 15 0 ≡ "
        "row_check f channel year row_as_before =",
        "pub same_to_2^40 : ((k : ℕ) → k < 2 * cells J → (amount f k ≤ 1099511627776) ⊎ (17592186044416 < amount f k)) → up_to "
        "1099511627776 ≡ file_check f same_to_2^40 =",
        "module _ (yes_file : accepted f ≡ true) where known : AcceptedFile f known = accepted_file f yes_file bounded : Bounded c "
        "bounded = (file_chain f known).0 pub logarithm_to : (k : ℕ) → k < 2 * cells J → logarithm (amount f k) ≤ 46137344 logarithm_to "
        "k below =",
        "pub paid_step_to : (i j : ℕ) → i + j ≤ J → nat_abs (paid_step f i j) ≤ 46137344 paid_step_to =",
        "pub incurred_step_to : (i j : ℕ) → i + j < J → nat_abs (incurred_step f i j) ≤ 46137344 incurred_step_to =",
        "pub last_ratio_to : (i : ℕ) → i ≤ J → nat_abs (last_ratio f i) ≤ 46137344 last_ratio_to =",
        "pub paid_sum_to : (j : ℕ) → j ≤ J → nat_abs (sum (J - j + 1) (λ i. paid_step f i j)) ≤ 738197504 paid_sum_to =",
        "pub incurred_sum_to : (j : ℕ) → j < J → nat_abs (sum (J - j) (λ i. incurred_step f i j)) ≤ 692060160 incurred_sum_to =",
        "pub own_side_of_phi_to : (j : ℕ) → j ≤ J → nat_abs (pos (c.s j) *ℤ c.prior_Φ j +ℤ pos (weight (σ² f j)) *ℤ sum (J - j + 1) (λ "
        "i. c.x i j)) ≤ 1536 * 2 ^ 47 own_side_of_phi_to j below =",
        "pub own_side_of_psi_to : (j : ℕ) → j < J → nat_abs (pos (c.t j) *ℤ c.prior_Ψ j +ℤ pos (weight (τ² f j)) *ℤ sum (J - j) (λ i. "
        "c.z i j)) ≤ 1536 * 2 ^ 47 own_side_of_psi_to j below =",
        "pub ratios_to : (m : ℕ) → m ≤ J → nat_abs (ratios_of_last c m) ≤ 660 * 2 ^ 47 ratios_to =",
        "pub right_hand_to : (k : ℕ) → k < 2 * J + 1 → nat_abs (right_hand_side c k) ≤ 2196 * 2 ^ 47 right_hand_to =",
        "pub residue_to : (μ : Vector) → ((l : ℕ) → l < 2 * J + 1 → nat_abs (μ l) ≤ 67108864) → (k : ℕ) → k < 2 * J + 1 → nat_abs "
        "(residue_times c 1 μ k) ≤ 19732 * 2 ^ 47 residue_to =",
        "pub divided_to : (μ : Vector) → ((l : ℕ) → l < 2 * J + 1 → nat_abs (μ l) ≤ 67108864) → (k : ℕ) → k < 2 * J + 1 → nat_abs "
        "(matrix c k k -ℤ pos 2 *ℤ residue_times c 1 μ k) ≤ 39465 * 2 ^ 47 divided_to =",
    ),
    "opening/Pinned": (
        "| pub open_refused : (s t : Held) (o p : Observations) (file : Bytes) (r : Refusal) → Opens s o file (Err r) t p → (t "
        "≡ s) × (p ≡ o) | open_refused",
        "| pub as_with_16 : (s t : Held) (o p : Observations) (f : Bytes) (r : Result Unit Refusal) → Opens s o f r t p → let "
        "with_16 : Outcome Kept = open_with16 Kept in_session (session_state o s) f in (of_open r ≡ with_16.answer) × "
        "(session_state p t ≡ with_16.state) | as_with_16",
        "pub opened_keeps : session_state p t ≡ holds (kept_of (unstruck f)) (tab_from 0 (parts (last_year f)) (prior_mean f)) 0 "
        "opened_keeps",
    ),
    "desk/Pinned": (
        "pub open_refused : r.number ≢ 0 → (t ≡ s) × (p ≡ o) open_refused =",
    ),
    "desk/PinnedSession": (
        "| module _ (o : Observations) (s : Held) where abbrev st : State Kept st = session_state o s pub opens_all : (p : "
        "Observations) (t : Held) (file : Bytes) (r : Refusal) → Opens s o file r t p → let x : Outcome Kept = outcome in_session st "
        "(open_file file) in (r ≡ refusal_told x.answer) × (session_state p t ≡ x.state) unfolding",
        "pub judges_all : (lent : Bytes) (r : Judged) → Judges s lent r → r ≡ judge_told (outcome in_session st (judge lent)).answer "
        "judges_all",
        "pub sweeps_all : (t : Held) (n : ℕ) (r : Swept) → Sweeps s n r t → let x : Outcome Kept = outcome in_session st (sweep n) in "
        "(r ≡ sweep_told x.answer) × (session_state o t ≡ x.state) sweeps_all",
        "abbrev Written : Refusal → Bytes → Outcome Kept → Type 0 Written r after x = (r ≡ refusal_told x.answer) × (after ≡ x.buffer) "
        "pub reads_all : (lent after : Bytes) (r : Refusal) → Reads s lent r after → Written r after (outcome in_session st (read "
        "lent)) reads_all",
        "pub pages_all : (lent after : Bytes) (r : Refusal) → Pages s lent r after → Written r after (outcome in_session st (page "
        "lent)) pages_all",
        "pub projects_all : (year : ℕ) (r : Projected) → ProjectsLent o.ticks o.variances s year r → r ≡ ultimate_told (outcome "
        "in_session st (ultimate year)).answer projects_all",
        "pub closes_all : (held : List ℕ) → Closes held → (D : List ℕ) (A b μ : List ℤ) (p : Observations) → session_state p (held_in "
        "held D A b μ) ≡ (outcome in_session st close).state unfolding",
        "pub strikes_all : (p : Observations) (t : Held) (d : Step) (r : Refusal) → Strikes d s o r t p → let x : Outcome Kept = "
        "outcome in_session st (strike d) in (r ≡ refusal_told x.answer) × (session_state p t ≡ x.state) unfolding",
        "pub weighs_all : (lent before after : Bytes) (r : Refusal) → WeighsLent o.ticks o.weights o.struck s lent before r after → "
        "Written r after (outcome in_session st (residues lent before)) × ((outcome in_session st (residues lent before)).state ≡ st) "
        "unfolding",
    ),
    "holding/Pinned": (
        "pub open-file : accepted f.file ≡ true → ((j : ℕ) → j ≤ last_year f.file → (i : ℕ) × (i + j ≤ last_year f.file) × (is_struck f "
        "(step 0 i j) ≡ false)) → ((j : ℕ) → j < last_year f.file → (i : ℕ) × (i + j < last_year f.file) × (is_struck f (step 1 i j) ≡ "
        "false)) → state_of s ≡ holds (figures_left f) μ total → HoldsFile s f μ total open-file",
        "pub reached_open : figures_of s.figures ≡ figures_left f → mean_of s.figures.last s.mean ≡ μ → s.total ≡ total → state_of s ≡ "
        "holds (figures_of s.figures) (mean_of s.figures.last s.mean) s.total reached_open",
        "pub reached_holds : state_of s ≡ holds (figures_left f) μ total → HoldsFile s f μ total reached_holds",
    ),
    "laws/PinnedStrikes": (
        "pub phi_left : own (chain_left f) j ≡ weight (prior_variance f.file j) + total (J - j + 1) (λ i. left 0 i (weight (σ² f.file "
        "j))) unfolding",
        "pub right_hand_phi_left : right_hand_side (chain_left f) j ≡ pos (weight (prior_variance f.file j)) *ℤ prior_mean f.file j +ℤ "
        "sum (J - j + 1) (λ i. pos (left 0 i (weight (σ² f.file j))) *ℤ paid_step f.file i j) +ℤ ratios_of_last (chain_left f) j "
        "unfolding",
        "pub psi_left : own (chain_left f) (psi_index J j) ≡ weight (prior_variance f.file (psi_index J j)) + total (J - j) (λ i. left "
        "1 i (weight (τ² f.file j))) unfolding",
        "pub right_hand_psi_left : right_hand_side (chain_left f) (psi_index J j) ≡ pos (weight (prior_variance f.file (psi_index J "
        "j))) *ℤ prior_mean f.file (psi_index J j) +ℤ sum (J - j) (λ i. pos (left 1 i (weight (τ² f.file j))) *ℤ incurred_step f.file i "
        "j) -ℤ ratios_of_last (chain_left f) (j + 1) unfolding",
        "pub reached_accepted : accepted f.file ≡ true reached_accepted",
        "pub reached_paid : (j : ℕ) → j ≤ last_year f.file → (i : ℕ) × (i + j ≤ last_year f.file) × (is_among f.struck (step 0 i j) ≡ "
        "false) reached_paid",
        "pub reached_incurred : (j : ℕ) → j < last_year f.file → (i : ℕ) × (i + j < last_year f.file) × (is_among f.struck (step 1 i j) "
        "≡ false) reached_incurred",
        "abbrev left : ℕ → ℕ → ℕ → ℕ left channel i w = cond (is_among f.struck (step channel i j)) 0 w module",
        "pub paid_term_leaves : i + j ≤ last_year f.file → is_among f.struck (step 0 i j) ≡ false → loss_times (chain_left f) m u ≡ "
        "loss_times (chain_left (record { file = f.file; struck = step 0 i j ∷ f.struck })) m u +ℤ pos (weight (σ² f.file j)) *ℤ ((u j "
        "-ℤ pos m *ℤ paid_step f.file i j) *ℤ (u j -ℤ pos m *ℤ paid_step f.file i j)) paid_term_leaves",
        "pub incurred_term_leaves : i + j < last_year f.file → is_among f.struck (step 1 i j) ≡ false → let d : ℤ = u (last_year f.file "
        "+ 1 + j) -ℤ pos m *ℤ incurred_step f.file i j in loss_times (chain_left f) m u ≡ loss_times (chain_left (record { file = "
        "f.file; struck = step 1 i j ∷ f.struck })) m u +ℤ pos (weight (τ² f.file j)) *ℤ (d *ℤ d) incurred_term_leaves",
    ),
    "striking/Pinned": (
        "pub strike_refused : (d : Step) (s t : Held) (o p : Observations) (refusal : Refusal) → Strikes d s o (Err refusal) t "
        "p → (t ≡ s) × (p ≡ o) | strike_refused",
        "pub struck_keeps : session_state p t ≡ holds (kept_of without_it) start 0 struck_keeps",
        "pub struck_holds : HoldsFile t without_it start 0 struck_holds",
        "abbrev without_it : StruckFile without_it = record { file = f.file; struck = d ∷ f.struck } abbrev start : List ℤ start = "
        "tab_from 0 (parts (last_year f.file)) (prior_mean f.file) abbrev check",
    ),
    "desk/PinnedStrikes": (
        "pub strike_told : r ≡ refusal_told (strikes_to (session_state o s) d).answer strike_told",
        "pub strike_numbered : (place : ℕ) → (strikes_to (session_state o s) d).answer ≢ refused 0 place strike_numbered",
        "pub strike_state : session_state p t ≡ (strikes_to (session_state o s) d).state strike_state",
        "pub strike_refused : r.number ≢ 0 → (t ≡ s) × (p ≡ o) strike_refused",
        "pub strike_closed : session_state o s ≡ empty → r ≡ refusal 21 unfolding",
        "pub no_channel : 1 < channel → r ≡ refusal 14 unfolding",
        "pub no_paid_step : channel ≡ 0 → J < i + j → r ≡ refusal 26 unfolding",
        "pub no_incurred_step : channel ≡ 1 → J ≤ i + j → r ≡ refusal 26 unfolding",
        "pub struck_already : channel ≤ 1 → is_step J (step channel i j) ≡ true → is_struck f (step channel i j) ≡ true → r ≡ refusal "
        "26 unfolding",
        "pub last_left : channel ≤ 1 → is_step J (step channel i j) ≡ true → is_struck f (step channel i j) ≡ false → left_beside J "
        "(is_struck f) (step channel i j) ≡ 1 → r ≡ refusal 27 unfolding",
        "pub paid_struck : channel ≡ 0 → i + j ≤ J → is_struck f (step channel i j) ≡ false → (k : ℕ) → i ≢ k → k + j ≤ J → is_struck f "
        "(step channel k j) ≡ false → (r ≡ refusal 0) × (session_state p t ≡ holds (kept_of without_it) start 0) unfolding",
        "pub incurred_struck : channel ≡ 1 → i + j < J → is_struck f (step channel i j) ≡ false → (k : ℕ) → i ≢ k → k + j < J → "
        "is_struck f (step channel k j) ≡ false → (r ≡ refusal 0) × (session_state p t ≡ holds (kept_of without_it) start 0) unfolding",
        "| abbrev pub refusal : ℕ → Refusal | refusal number = record { number = number; place = 0 }",
        "abbrev J : ℕ J = last_year f.file abbrev without_it : StruckFile without_it = record { file = f.file; struck = step channel i "
        "j ∷ f.struck } abbrev start : List ℤ start = tab_from 0 (parts (last_year f.file)) (prior_mean f.file)",
    ),
    "laws/PinnedResidues": (
        "| module _ (f : StruckFile) (u : Vector) where abbrev J : ℕ J = last_year f.file abbrev residue_of : ℕ → ℤ residue_of = "
        "observed_times (chain_left f) 1 u abbrev left : ℕ → ℕ → ℕ → ℕ → ℕ left channel j i w = cond (is_among f.struck (step channel i "
        "j)) 0 w abbrev ratio_of : ℕ → ℤ ratio_of i = pos (weight (ratio_variance f.file (J - i))) *ℤ (sum i (λ m. u (J - i + 1 + m)) "
        "-ℤ sum i (λ n. u (J + 1 + (J - i + n))) -ℤ last_ratio f.file i) abbrev ratios_of : ℕ → ℤ ratios_of n = sum n (λ k. ratio_of (J "
        "- n + 1 + k)) once :",
        "pub residue_of_phi : (j : ℕ) → j ≤ last_year f.file → residue_of j ≡ pos (weight (prior_variance f.file j)) *ℤ (u j -ℤ "
        "prior_mean f.file j) +ℤ sum (J - j + 1) (λ i. pos (left 0 j i (weight (σ² f.file j))) *ℤ (u j -ℤ paid_step f.file i j)) +ℤ "
        "ratios_of j unfolding",
        "pub residue_of_psi : (j : ℕ) → residue_of (J + 1 + j) ≡ pos (weight (prior_variance f.file (J + 1 + j))) *ℤ (u (J + 1 + j) -ℤ "
        "prior_mean f.file (J + 1 + j)) +ℤ sum (J - j) (λ i. pos (left 1 j i (weight (τ² f.file j))) *ℤ (u (J + 1 + j) -ℤ incurred_step "
        "f.file i j)) -ℤ ratios_of (j + 1) unfolding",
        "pub residue_by_matrix : (k : ℕ) → k < 2 * last_year f.file + 1 → residue_of k ≡ sum (2 * J + 1) (λ l. matrix (chain_left f) k "
        "l *ℤ u l) -ℤ right_hand_side (chain_left f) k unfolding",
        "pub residue_judged : (k : ℕ) → k < 2 * last_year f.file + 1 → residue_of k ≡ residue (figures_left f) u k residue_judged k",
        "| pub reached_residues : (calls : List Call) (f : StruckFile) (μ : List ℤ) (count : ℕ) → after empty calls ≡ holds f μ count → "
        "(u : Vector) → ((l : ℕ) → l < 2 * last_year f.file + 1 → nat_abs (u l) ≤ 67108864) → (rest : Bytes) (k : ℕ) → k < 2 * "
        "last_year f.file + 1 → residue_at (residue_bytes (chain_left f) u ++ rest) k ≡ residue (figures_left f) u k | reached_residues",
    ),
    "weighing/Pinned": (
        "pub residues_refused : (refusal : Refusal) → Weighs o s r before (Err refusal) after → after ≡ before "
        "residues_refused refusal",
        "pub residues_written : (f : StruckFile) (μ : List ℤ) (count : ℕ) → Admitted f → session_state o s ≡ holds (kept_of f) "
        "μ count → Weighs o s r before (Ok tt) after → (k : ℕ) → k < 2 * last_year f.file + 1 → residue_at after k ≡ residue "
        "(figures_left f) (part (mean_of (last_year f.file) r)) k residues_written f",
    ),
    "desk/PinnedResidues": (
        "| abbrev pub refusal : ℕ → ℕ → Refusal | refusal number place = record { number = number; place = place } | |",
        "pub residues_told : (r ≡ refusal_told (weighs_to (session_state o s) lent before).answer) × (after ≡ (weighs_to (session_state "
        "o s) lent before).buffer) residues_told =",
        "pub residues_numbered : (place : ℕ) → (weighs_to (session_state o s) lent before).answer ≢ refused 0 place residues_numbered =",
        "pub residues_closed : session_state o s ≡ empty → (r ≡ refusal 21 0) × (after ≡ before) unfolding",
        "pub residues_refused : (number place : ℕ) → record_check x.figures.last lent ≡ refuses number place → (r ≡ refusal number "
        "place) × (after ≡ before) unfolding",
        "pub residues_short : record_check x.figures.last lent ≡ clear → length before < 8 * (2 * x.figures.last + 1) → (r ≡ refusal 13 "
        "0) × (after ≡ before) unfolding",
        "pub residues_written : record_check x.figures.last lent ≡ clear → 8 * (2 * x.figures.last + 1) ≤ length before → (r ≡ refusal "
        "0 0) × (after ≡ residue_bytes (chain_kept x) (part (mean_of x.figures.last lent)) ++ drop (8 * (2 * x.figures.last + 1)) "
        "before) unfolding",
        "pub residues_of_file : (f : StruckFile) (μ : List ℤ) (count : ℕ) → accepted f.file ≡ true → ((j : ℕ) → j ≤ last_year f.file → "
        "(i : ℕ) × (i + j ≤ last_year f.file) × (is_struck f (step 0 i j) ≡ false)) → ((j : ℕ) → j < last_year f.file → (i : ℕ) × (i + "
        "j < last_year f.file) × (is_struck f (step 1 i j) ≡ false)) → session_state o s ≡ holds (kept_of f) μ count → r.number ≡ 0 → "
        "(k : ℕ) → k < 2 * last_year f.file + 1 → residue_at after k ≡ sum (2 * last_year f.file + 1) (λ l. matrix (chain_left f) k l "
        "*ℤ part (mean_of (last_year f.file) lent) l) -ℤ right_hand_side (chain_left f) k residues_of_file f",
    ),
}
