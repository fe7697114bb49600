"""What laws and contracts say, to the letter, as `letters` has it. Of the laws: what is asked of a chain, and of what is kept. Of
contracts: what arrays stand for, what figures are made of, what open, ultimate, strike and residues promise, what C is told of these, what
a call that writes answers, and the sizes that are told.
"""

PROMISED = {
    "laws/Chains": (
        "| abbrev pub weight_limit : ℕ | weight_limit = 2 ^ 28 | abbrev pub share_limit : ℕ | share_limit = 2 ^ 27 | abbrev pub "
        "observed_limit : ℕ | observed_limit = 44 * ticks_per_doubling | pub record Bounded (c : Chain) : Type 0 where pub years : "
        "c.last ≤ year_limit pub p_to : (i j : ℕ) → i + j ≤ c.last → c.p i j ≤ weight_limit pub q_to : (i j : ℕ) → i + j < c.last → c.q "
        "i j ≤ weight_limit pub s_to : (j : ℕ) → j ≤ c.last → c.s j ≤ weight_limit pub t_to : (j : ℕ) → j < c.last → c.t j ≤ "
        "weight_limit pub g_to : (d : ℕ) → d < c.last → c.g d ≤ share_limit pub x_to : (i j : ℕ) → i + j ≤ c.last → nat_abs (c.x i j) ≤ "
        "observed_limit pub z_to : (i j : ℕ) → i + j < c.last → nat_abs (c.z i j) ≤ observed_limit pub y_to : (i : ℕ) → i ≤ c.last → "
        "nat_abs (c.y i) ≤ observed_limit pub prior_Φ_to : (j : ℕ) → j ≤ c.last → nat_abs (c.prior_Φ j) ≤ part_limit pub prior_Ψ_to : "
        "(j : ℕ) → j < c.last → nat_abs (c.prior_Ψ j) ≤ part_limit | pub record Carried (c : Chain) : Type 0 where pub x_year : ℕ → ℕ "
        "pub x_there : (j : ℕ) → j ≤ c.last → x_year j + j ≤ c.last pub x_counts : (j : ℕ) → j ≤ c.last → 1 ≤ c.p (x_year j) j pub "
        "x_shares : (d j : ℕ) → d < j → j ≤ c.last → c.g d ≤ c.p (x_year j) j pub z_year : ℕ → ℕ pub z_there : (j : ℕ) → j < c.last → "
        "z_year j + j < c.last pub z_counts : (j : ℕ) → j < c.last → 1 ≤ c.q (z_year j) j pub z_shares : (d j : ℕ) → d ≤ j → j < c.last "
        "→ c.g d ≤ c.q (z_year j) j |",
    ),
    "laws/Demand3": (
        "| module _ (c : Chain) (e : ℕ) (μ : Vector) where",
        "pub guaranteed : Carried c → passes (figures_from c e) μ ≡ true → Guarantee c e μ guaranteed h",
        "| pub rounded_passes : (c : Chain) (e : ℕ) → Carried c → c.last ≤ year_limit → RoundingPasses c e | rounded_passes",
    ),
    "laws/MachineLaws": (
        "pub outcomes_alike : (calls : List Call) (st : State X) → outcomes L (map_state φ st) calls ≡ map (map_outcome φ) (outcomes K "
        "st calls) unfolding",
        "| pub record Alike {X Y : Type 0} (K : Keeping X) (L : Keeping Y) (φ : X → Y) : Type 0 where pub keeps : (f : Bytes) → φ "
        "(K.keep f) ≡ L.keep f pub figures : (x : X) → L.figures (φ x) ≡ K.figures x pub prior_means : (x : X) → L.prior_means (φ x) ≡ "
        "K.prior_means x pub latest : (x : X) → SameLatest (K.figures x).last (L.latest (φ x)) (K.latest x) pub years : (x : X) → "
        "(L.chain (φ x)).last ≡ (K.chain x).last pub chain : (x : X) → SameChain (K.chain x) (L.chain (φ x)) pub struck_x : (x : X) (i "
        "j : ℕ) → i + j ≤ (K.figures x).last → L.struck (φ x) (step 0 i j) ≡ K.struck x (step 0 i j) pub struck_z : (x : X) (i j : ℕ) → "
        "i + j < (K.figures x).last → L.struck (φ x) (step 1 i j) ≡ K.struck x (step 1 i j) pub strikes : (x : X) (s : Step) → φ "
        "(K.strike_out s x) ≡ L.strike_out s (φ x) | |",
        "| module _ {X Y : Type 0} (K : Keeping X) (L : Keeping Y) (φ : X → Y) (h : Alike K L φ) where",
    ),
    "laws/Ultimates": (
        "| pub record SameLatest (J : ℕ) (a b : Latest) : Type 0 where pub log_paid : (i : ℕ) → i ≤ J → a.log_paid i ≡ b.log_paid i pub "
        "log_incurred : (i : ℕ) → i ≤ J → a.log_incurred i ≡ b.log_incurred i pub variance_Φ : (m : ℕ) → m ≤ J → a.variance_Φ m ≡ "
        "b.variance_Φ m pub variance_Ψ : (n : ℕ) → n < J → a.variance_Ψ n ≡ b.variance_Ψ n |",
    ),
    "observations/Arrays": (
        "| abbrev pub mark_at : List ℕ → ℕ → ℕ → Bool | mark_at struck k i = not (eqb (at struck (16 * k + i)) 0) | abbrev pub unmarked "
        ": List ℕ → ℕ → ℕ → ℕ | unmarked struck k n = total n (λ i. cond (mark_at struck k i) 0 1) | abbrev pub observations_at",
        "| abbrev pub brought_within : ℕ → ℕ → ℕ → ℕ | brought_within lo hi v = max lo (min hi v) | unfoldable pub log_within : ℤ → ℤ | "
        "log_within (pos n) = pos (min (44 * ticks_per_doubling) n) | log_within (negsuc n) = pos 0 | unfoldable pub observed_in : ℕ → "
        "Observations → Observed | observed_in J o = record { logarithms = tab_from 0 (2 * cells J) (λ c. log_within (part o.ticks c)); "
        "variances = tab_from 0 (parts J) (λ k. brought_within (2 ^ 18) (2 ^ 40) (at o.variances k)); weights = tab_from 0 (parts J) (λ "
        "k. brought_within 1 (2 ^ 28) (at o.weights k)); prior_weights = tab_from 0 (parts J) (λ k. brought_within 0 (2 ^ 28) (prior_at "
        "o.weights k)); ratio_weights = tab_from 0 J (λ d. brought_within 0 (2 ^ 27) (ratio_at o.weights d)); prior_means = tab_from 0 "
        "(parts J) (λ k. bring_back (mean_at o.ticks k)); | } | abbrev pub struck_at : ℕ → List ℕ → ℕ → ℕ → Bool | struck_at J struck k "
        "i = cond (eqb (unmarked struck k (steps_of J k)) 0) false (mark_at struck k i) | unfoldable pub struck_in : ℕ → Observations → "
        "Marks | struck_in J o = tab_from 0 (parts J) (λ k. tab_from 0 (steps_of J k) (struck_at J o.struck k)) |",
    ),
    "observations/HoldsChain": (
        "| abbrev pub chain_at : ℕ → List ℤ → List ℕ → List ℕ → Chain | chain_at J ticks weights struck = record { last = J; p = λ i j. "
        "cond (mark_at struck j i) 0 (at weights j); q = λ i j. cond (mark_at struck (psi_index J j) i) 0 (at weights (psi_index J j)); "
        "s = prior_at weights; t = λ j. prior_at weights (psi_index J j); g = ratio_at weights; x = paid_step_in ticks J; z = "
        "incurred_step_in ticks J; y = last_ratio_in ticks J; prior_Φ = mean_at ticks; prior_Ψ = λ j. mean_at ticks (psi_index J j); | "
        "} | abbrev pub HoldsChain : Chain → List ℤ → List ℕ → List ℕ → Type 0 | HoldsChain c ticks weights struck = SameChain c "
        "(chain_at c.last ticks weights struck) |",
    ),
    "figures/Gathered": (
        "| pub record OfObservations (ticks : List ℤ) (weights : List ℕ) (last : ℕ) : Type 0 where pub few : last ≤ year_limit pub "
        "logs_small : (c : ℕ) → c < 2 * cells last → nat_abs (part ticks c) ≤ 2 ^ 26 pub means_small : (k : ℕ) → k < parts last → "
        "nat_abs (mean_at ticks k) ≤ 2 ^ 26 pub columns_small : (k : ℕ) → k < parts last → at weights k ≤ 2 ^ 28 pub priors_small : (k "
        ": ℕ) → k < parts last → prior_at weights k ≤ 2 ^ 28 pub ratios_small : (d : ℕ) → d < last → ratio_at weights d ≤ 2 ^ 27 | pub "
        "record FiguresOf (ticks : List ℤ) (weights struck : List ℕ) (last : ℕ) (D : List ℕ) (A b : List ℤ) : Type 0 where pub are : (c "
        ": Chain) → c.last ≡ last → HoldsChain c ticks weights struck → (e : ℕ) → figures_of (figures_at last e D A b) ≡ figures_from c "
        "e |",
    ),
    "holding/State": (
        "| abbrev pub kept_with : Observations → D.Figures → Kept | kept_with o F = record { figures = F; observed = observed_in F.last "
        "o; struck = struck_in F.last o } | abbrev pub session_state : Observations → Held → State Kept | session_state o s = map_state "
        "(kept_with o) (state_of s) |",
        "| pub record HoldsFile (s : Held) (f : StruckFile) (μ : List ℤ) (total : ℕ) : Type 0 where pub file : Admitted f pub state : "
        "state_of s ≡ holds (figures_left f) μ total |",
    ),
    "opening/Opens": (
        "| abbrev pub of_open : Result Unit Refusal → Answer | of_open (Ok done) = M.opened | of_open (Err r) = refused_as r | "
        "abbrev pub opens_to : State Kept → Bytes → Outcome Kept | opens_to = open_call in_session | pub record Opens (s : "
        "Held) (o : Observations) (file : Bytes) (r : Result Unit Refusal) (t : Held) (p : Observations) : Type 0 where pub "
        "answer : of_open r ≡ (opens_to (session_state o s) file).answer pub state : session_state p t ≡ (opens_to "
        "(session_state o s) file).state pub same : IsErr r → (t ≡ s) × (p ≡ o) |",
    ),
    "projecting/Projects": (
        "| abbrev pub of_ultimate : Ultimate → D.Ultimate | of_ultimate r = record { floor = r.floor; remainder = r.remainder; "
        "divisor = r.divisor } | abbrev pub of_project : Result Ultimate Refusal → Answer | of_project (Ok r) = M.ultimate_is "
        "(of_ultimate r) | of_project (Err r) = refused_as r | abbrev pub latest_with : Observations → Figures → Latest | "
        "latest_with o F = latest_in F.last (observed_in F.last o) | abbrev pub projects_to : Observations → State Figures → ℕ "
        "→ Answer | projects_to o = ultimate_call (λ F. F) (latest_with o) | pub record Projects (o : Observations) (s : Held) "
        "(year : ℕ) (r : Result Ultimate Refusal) : Type 0 where pub answer : of_project r ≡ projects_to o (state_of s) year "
        "pub exact : (F : Figures) (μ : List ℤ) (count : ℕ) → state_of s ≡ holds F μ count → (u : Ultimate) → r ≡ Ok u → "
        "Divided (numerator F.last (latest_with o F) year (part μ)) (of_ultimate u) × (u.divisor ≡ both_variances F.last "
        "(latest_with o F) year) pub worth : (f : StruckFile) (μ : List ℤ) (count : ℕ) → HoldsFile s f μ count → (u : "
        "Ultimate) → r ≡ Ok u → Guarantee (chain_left f) (closeness f.file) (part μ) | abbrev pub ProjectsLent : List ℤ → List "
        "ℕ → Held → ℕ → Result Ultimate Refusal → Type 0 | ProjectsLent ticks variances s year r = (weights struck : List ℕ) → "
        "Projects (observations_at ticks weights variances struck) s year r |",
    ),
    "telling/Told": (
        "| abbrev pub ultimate_told : Answer → Projected | ultimate_told a = record { refusal = refusal_told a; floor = (told "
        "a).figure.floor; remainder = (told a).figure.remainder; divisor = (told a).figure.divisor; | } |",
    ),
    "desk/Calls": (
        "| abbrev pub Numbered : Answer → Type 0 | Numbered a = (place : ℕ) → a ≢ refused 0 place | pub record Opens (s : Held) (o : "
        "Observations) (file : Bytes) (r : Refusal) (t : Held) (p : Observations) : Type 0 where pub told : r ≡ refusal_told (opens_to "
        "(session_state o s) file).answer pub numbered : Numbered (opens_to (session_state o s) file).answer pub state : session_state "
        "p t ≡ (opens_to (session_state o s) file).state pub same : r.number ≢ 0 → (t ≡ s) × (p ≡ o) |",
        "| pub record Strikes (d : Step) (s : Held) (o : Observations) (r : Refusal) (t : Held) (p : Observations) : Type 0 where pub "
        "told : r ≡ refusal_told (strikes_to (session_state o s) d).answer pub numbered : Numbered (strikes_to (session_state o s) "
        "d).answer pub state : session_state p t ≡ (strikes_to (session_state o s) d).state pub same : r.number ≢ 0 → (t ≡ s) × (p ≡ o) "
        "| abbrev pub StrikesLent : ℕ → ℕ → ℕ → Held → List ℤ → List ℕ → List ℕ → Refusal → Held → List ℤ → List ℕ → List ℕ → Type 0 | "
        "StrikesLent channel i j s ticks weights struck r t ticks' weights' struck' = (variances : List ℕ) → Strikes (step channel i j) "
        "s (observations_at ticks weights variances struck) r t (observations_at ticks' weights' variances struck') |",
        "| abbrev pub figure_of : Projected → Ultimate | figure_of r = record { floor = r.floor; remainder = r.remainder; divisor = "
        "r.divisor } | pub record Projects (o : Observations) (s : Held) (year : ℕ) (r : Projected) : Type 0 where pub told : r ≡ "
        "ultimate_told (projects_to o (state_of s) year) pub numbered : Numbered (projects_to o (state_of s) year) pub exact : (F : "
        "Figures) (μ : List ℤ) (total : ℕ) → state_of s ≡ holds F μ total → r.refusal.number ≡ 0 → Divided (numerator F.last "
        "(latest_with o F) year (part μ)) (figure_of r) × (r.divisor ≡ both_variances F.last (latest_with o F) year) pub worth : (f : "
        "StruckFile) (μ : List ℤ) (total : ℕ) → HoldsFile s f μ total → r.refusal.number ≡ 0 → Guarantee (chain_left f) (closeness "
        "f.file) (part μ) | abbrev pub ProjectsLent : List ℤ → List ℕ → Held → ℕ → Projected → Type 0 | ProjectsLent ticks variances s "
        "year r = (weights struck : List ℕ) → Projects (observations_at ticks weights variances struck) s year r |",
        "| pub record Weighs (o : Observations) (s : Held) (meanRecord before : Bytes) (r : Refusal) (after : Bytes) : Type 0 where pub "
        "told : r ≡ refusal_told (weighs_to (session_state o s) meanRecord before).answer pub numbered : Numbered (weighs_to "
        "(session_state o s) meanRecord before).answer pub buffer : after ≡ (weighs_to (session_state o s) meanRecord before).buffer "
        "pub of_file : (f : StruckFile) (μ : List ℤ) (total : ℕ) → Admitted f → session_state o s ≡ holds (kept_of f) μ total → "
        "r.number ≡ 0 → (k : ℕ) → k < parts (last_year f.file) → residue_at after k ≡ residue (figures_left f) (part (mean_of "
        "(last_year f.file) meanRecord)) k | abbrev pub WeighsLent : List ℤ → List ℕ → List ℕ → Held → Bytes → Bytes → Refusal → Bytes "
        "→ Type 0 | WeighsLent ticks weights struck s meanRecord before r after = (variances : List ℕ) → Weighs (observations_at ticks "
        "weights variances struck) s meanRecord before r after | pub record Shows",
    ),
    "desk/Sizes": (
        "| abbrev pub sizes : List ℕ | sizes = 3 ∷ parts year_limit ∷ (parts year_limit * parts year_limit) ∷ parts year_limit ∷ parts "
        "year_limit ∷ (2 * cells year_limit + parts year_limit) ∷ (2 * parts year_limit + year_limit) ∷ parts year_limit ∷ (parts "
        "year_limit * (year_limit + 1)) ∷ [] | abbrev pub size_of : ℕ → ℕ | size_of array = get_or sizes array 0 |",
    ),
    "laws/StruckFiles": (
        "| pub struck_chain : (f : StruckFile) → Admitted f → Bounded (chain_left f) × Carried (chain_left f) | struck_chain",
        "| pub file_chain : (f : Bytes) → AcceptedFile f → Bounded (chain_of f) × Carried (chain_of f) | file_chain",
    ),
    "laws/SameChains": (
        "| pub record SameChain (c d : Chain) : Type 0 where pub p : (i j : ℕ) → i + j ≤ c.last → c.p i j ≡ d.p i j pub q : (i j : ℕ) → "
        "i + j < c.last → c.q i j ≡ d.q i j pub s : (j : ℕ) → j ≤ c.last → c.s j ≡ d.s j pub t : (j : ℕ) → j < c.last → c.t j ≡ d.t j "
        "pub g : (k : ℕ) → k < c.last → c.g k ≡ d.g k pub x : (i j : ℕ) → i + j ≤ c.last → c.x i j ≡ d.x i j pub z : (i j : ℕ) → i + j "
        "< c.last → c.z i j ≡ d.z i j pub y : (i : ℕ) → i ≤ c.last → c.y i ≡ d.y i pub prior_Φ : (j : ℕ) → j ≤ c.last → c.prior_Φ j ≡ "
        "d.prior_Φ j pub prior_Ψ : (j : ℕ) → j < c.last → c.prior_Ψ j ≡ d.prior_Ψ j |",
        "module _ (c d : Chain) (h : SameChain c d) where",
        "pub same_figures : (close : ℕ) → figures_from c close ≡ figures_from (with_years c.last d) close unfolding",
    ),
    "striking/Strikes": (
        "| abbrev pub of_strike : Result Unit Refusal → Answer | of_strike (Ok done) = M.struck_out | of_strike (Err r) = "
        "refused_as r | abbrev pub strikes_to : State Kept → Step → Outcome Kept | strikes_to = strike_call in_session | pub "
        "record Strikes (d : Step) (s : Held) (o : Observations) (r : Result Unit Refusal) (t : Held) (p : Observations) : "
        "Type 0 where pub answer : of_strike r ≡ (strikes_to (session_state o s) d).answer pub state : session_state p t ≡ "
        "(strikes_to (session_state o s) d).state pub same : (refusal : Refusal) → r ≡ Err refusal → (t ≡ s) × (p ≡ o) | "
        "abbrev pub StrikesLent : ℕ → ℕ → ℕ → Held → List ℤ → List ℕ → List ℕ → Result Unit Refusal → Held → List ℤ → List ℕ → "
        "List ℕ → Type 0 | StrikesLent channel i j s ticks weights struck r t ticks' weights' struck' = (variances : List ℕ) → "
        "Strikes (step channel i j) s (observations_at ticks weights variances struck) r t (observations_at ticks' weights' "
        "variances struck') |",
    ),
    "laws/ObservedResidues": (
        "pub observed_is_residue : (e k : ℕ) → k < parts c.last → observed_times c 1 u k ≡ residue (figures_from c e) u k "
        "observed_is_residue e k",
        "pub observed_fits : Bounded c → ((l : ℕ) → l < parts c.last → nat_abs (u l) ≤ part_limit) → (k : ℕ) → k < parts c.last → "
        "nat_abs (observed_times c 1 u k) ≤ 19732 * 2 ^ 47 observed_fits h",
        "| module _ (c : Chain) (u : Vector) (h : Bounded c) (small : (l : ℕ) → l < parts c.last → nat_abs (u l) ≤ part_limit) where",
        "pub residues_read : (rest : Bytes) (e k : ℕ) → k < parts c.last → residue_at (residue_bytes c u ++ rest) k ≡ residue "
        "(figures_from c e) u k unfolding",
    ),
    "weighing/Weighs": (
        "| abbrev pub weighs_to : State Kept → Bytes → Bytes → Outcome Kept | weighs_to = residues_call chain_kept | pub "
        "record Weighs (o : Observations) (s : Held) (meanRecord before : Bytes) (r : Result Unit Refusal) (after : Bytes) : "
        "Type 0 where pub answer : of_write r ≡ (weighs_to (session_state o s) meanRecord before).answer pub buffer : after ≡ "
        "(weighs_to (session_state o s) meanRecord before).buffer pub of_file : (f : StruckFile) (μ : List ℤ) (count : ℕ) → "
        "Admitted f → session_state o s ≡ holds (kept_of f) μ count → IsOk r → (k : ℕ) → k < parts (last_year f.file) → "
        "residue_at after k ≡ residue (figures_left f) (part (mean_of (last_year f.file) meanRecord)) k | abbrev pub "
        "WeighsLent : List ℤ → List ℕ → List ℕ → Held → Bytes → Bytes → Result Unit Refusal → Bytes → Type 0 | WeighsLent "
        "ticks weights struck s meanRecord before r after = (variances : List ℕ) → Weighs (observations_at ticks weights "
        "variances struck) s meanRecord before r after | |",
    ),
    "writing/Writes": (
        "| abbrev pub of_write : Result Unit Refusal → Answer | of_write (Ok done) = M.written | of_write (Err r) = refused_as "
        "r |",
    ),
}
