"""What pins suppose, since one that supposes too much says nothing: of each file of pins the parameters of its modules, in their order."""

SUPPOSED = {
    "laws/PinnedUltimate": (
        "(f : Bytes) (i : ℕ) (u : ℕ → ℤ)",
        "(taken : accepted f ≡ true) (from : 1 ≤ i) (to : i ≤ J)",
    ),
    "projecting/Pinned": (
        "(o : Observations) (s : Held) (year : ℕ) (u : Ultimate) (call : Projects o s year (Ok u))",
    ),
    "desk/PinnedUltimate": (
        "(o : Observations) (s : Held) (year : ℕ) (r : Projected) (call : Projects o s year r)",
        "(F : Figures) (μ : List ℤ) (count : ℕ) (some : state_of s ≡ holds F μ count)",
        "(f : StruckFile) (μ : List ℤ) (count : ℕ) (kept : session_state o s ≡ holds (kept_of f) μ count) (p : passes (figures_left f) "
        "(part μ) ≡ true) (from : 1 ≤ year) (to : year ≤ last_year f.file)",
    ),
    "laws/Pinned": (
        "(f : StruckFile)",
        "(h : Admitted f) (μ : Vector)",
        "(X : Type 0) (K : Keeping X) (st : State X)",
    ),
    "laws/PinnedChains": (
        "(J : ℕ) (some : 1 ≤ J) (few : J ≤ 15)",
        "(e : ℕ)",
    ),
    "laws/PinnedAmounts": (
        "(f : Bytes)",
        "(was : is_clear (up_to 1099511627776) ≡ true)",
        "(yes_file : accepted f ≡ true)",
    ),
    "laws/PinnedPage": (
        "(f : StruckFile) (admitted : Admitted f) (μ : List ℤ) (limits : (k : ℕ) → k < 2 * last_year f.file + 1 → nat_abs (part μ k) ≤ "
        "67108864)",
        "(k : ℕ) (below : k < 2 * J + 1)",
    ),
    "laws/PinnedPriors": (
        "(f : Bytes)",
        "(was : is_clear with_priors ≡ true)",
    ),
    "laws/Number16": (
        "(f : Bytes)",
        "(X : Type 0) (K : Keeping X)",
    ),
    "row_starts/Pinned": (
        "(J : ℕ) (r : List ℕ) (starts : Starts J r)",
    ),
    "holding/Pinned": (
        "(s : Held) (f : StruckFile) (μ : List ℤ) (total : ℕ)",
        "(calls : List Call) (reached : after empty calls ≡ holds f μ total)",
    ),
    "laws/Columns": (
        "(n w : ℕ) (p : ℕ → ℕ) (struck : ℕ → Bool) (one : (i : ℕ) → i < n → p i ≡ cond (struck i) 0 w)",
        "(c : Chain)",
        "(j w : ℕ) (struck : ℕ → Bool) (below : j ≤ c.last) (one : (i : ℕ) → i + j ≤ c.last → c.p i j ≡ cond (struck i) 0 w)",
        "(j w : ℕ) (struck : ℕ → Bool) (one : (i : ℕ) → i + j < c.last → c.q i j ≡ cond (struck i) 0 w)",
        "(f : Bytes) (j : ℕ)",
        "(below : j ≤ J)",
    ),
    "opening/Pinned": (
        "(s t : Held) (o p : Observations) (f : Bytes) (none : state_of s ≡ empty) (call : Opens s o f (Ok tt) t p)",
    ),
    "desk/PinnedSession": (
        "(o : Observations) (s : Held)",
    ),
    "judging/Pinned": (
        "(f : StruckFile) (s : Held) (μ : List ℤ) (count : ℕ) (open-file : HoldsFile s f μ count) (r : Bytes) {a : Result "
        "Judgement Refusal} (call : Judges s r a)",
    ),
    "sweeping/Pinned": (
        "(f : StruckFile) (s t : Held) (μ ν : List ℤ) (count after : ℕ) (before : HoldsFile s f μ count) (then : HoldsFile t f "
        "ν after) (n : ℕ) {a : Result Progress Refusal} (call : Sweeps s n a t)",
    ),
    "writing/Pinned": (
        "(f : StruckFile) (s : Held) (μ : List ℤ) (count : ℕ) (open-file : HoldsFile s f μ count)",
    ),
    "showing/Pinned": (
        "(s : Held) (r : Result arrays.Figures Refusal) (call : Shows s r)",
        "(F : Figures) (μ : List ℤ) (count : ℕ) (some : state_of s ≡ holds F μ count)",
        "(f : StruckFile) (μ : List ℤ) (count : ℕ) (open-file : HoldsFile s f μ count)",
    ),
    "desk/Pinned": (
        "(s t : Held)",
        "(o p : Observations) (file : Bytes) (r : Refusal) (call : Opens s o file r t p)",
        "(n : ℕ) (r : Swept) (call : Sweeps s n r t)",
        "(s : Held) (lent : Bytes)",
        "(r : Judged) (call : Judges s lent r)",
        "(size : ℕ → ℕ) (text : Text) (r : Refusal) (after : Bytes) (call : Writes size text s lent r after)",
        "(F : Figures) (μ : List ℤ) (count : ℕ) (some : state_of s ≡ holds F μ count) (p : passes F (part μ) ≡ true)",
        "(s : Held) (r : System) (call : Shows s r)",
        "(F : Figures) (μ : List ℤ) (count : ℕ) (some : state_of s ≡ holds F μ count)",
        "(f : StruckFile) (μ : List ℤ) (count : ℕ) (open-file : HoldsFile s f μ count)",
        "(file : Bytes) (channel year : ℕ) (r : RowShown) (call : ShowsRow file channel year r)",
        "(f : StruckFile) (s : Held) (μ : List ℤ) (count : ℕ) (open-file : HoldsFile s f μ count)",
        "(mean : Bytes) (r : Judged) (call : Judges s mean r)",
        "(n : ℕ) (r : Swept) (t : Held) (call : Sweeps s n r t) (ν : List ℤ)",
    ),
    "laws/PinnedStrikes": (
        "(f : StruckFile) (j : ℕ)",
        "(below : j ≤ last_year f.file)",
        "(f : StruckFile) (i j m : ℕ) (u : ℕ → ℤ)",
        "(calls : List Call) (f : StruckFile) (μ : List ℤ) (count : ℕ) (reached : after empty calls ≡ holds f μ count)",
    ),
    "striking/Pinned": (
        "(d : Step) (s t : Held) (o p : Observations) (f : StruckFile) (μ : List ℤ) (count : ℕ) (file : Admitted f) (kept : "
        "session_state o s ≡ holds (kept_of f) μ count) (call : Strikes d s o (Ok tt) t p)",
    ),
    "desk/PinnedStrikes": (
        "(channel i j : ℕ) (s t : Held) (o p : Observations) (r : Refusal) (call : Strikes (step channel i j) s o r t p)",
        "(f : StruckFile) (μ : List ℤ) (count : ℕ) (kept : session_state o s ≡ holds (kept_of f) μ count)",
    ),
    "laws/PinnedResidues": (
        "(f : StruckFile) (u : Vector)",
    ),
    "weighing/Pinned": (
        "(o : Observations) (s : Held) (r before after : Bytes)",
    ),
    "desk/PinnedResidues": (
        "(o : Observations) (s : Held) (lent before after : Bytes) (r : Refusal) (call : Weighs o s lent before r after)",
        "(x : Kept) (μ : List ℤ) (count : ℕ) (some : session_state o s ≡ holds x μ count)",
    ),
}
