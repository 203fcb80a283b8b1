"""The changes that bench/mutants.py tries: for each definition its file in me_terms/specs, and then a text that stands
there once with what stands there instead, one at a time. A change that needs an import more is a pair with it.

Each means something else than the definition. So these are no changes: that hidden entries count too in Contradicts,
IsConsistent, HasException, IsSubsumed or HasVariant, since what hides an entry counts wherever the entry would; that
HasVariant speaks of Parametric entries alone, since a Universal variant subsumes the literal; that a key which ends
stands after the one that goes on, since two keys of one clause are equally long; that pattern_weight leaves out the
predicate; that 'most general' is asked of the clause's variables alone, or space by space, since the equations
determine the entries' variables by the clause's; what Unifiable says of the pseudo-atom, which is never Universal; and
what place_of gives for a variable that does not occur. A definition of one line admits fewer than ten changes, and many
others have fewer here than they admit.
"""

CHANGES = [
    ("apply", "Substitutions", [
        ("apply_term s (Var x) = s x", [
            "apply_term s (Var x) = Var x",
            "apply_term s (Var x) = s 0",
        ]),
        ("apply_term s (App f ts) = App f (apply_arguments s ts)", [
            "apply_term s (App f ts) = App f ts",
            "apply_term s (App f ts) = App 0 (apply_arguments s ts)",
            "apply_term s (App f ts) = App f Nil",
        ]),
        ("apply_arguments s (Cons t ts) = Cons (apply_term s t) (apply_arguments s ts)", [
            "apply_arguments s (Cons t ts) = Cons t (apply_arguments s ts)",
            "apply_arguments s (Cons t ts) = Cons (apply_term s t) ts",
        ]),
        ("apply_atom s a = record { pred = a.pred; args = apply_arguments s a.args }", [
            "apply_atom s a = record { pred = a.pred; args = a.args }",
            "apply_atom s a = record { pred = 0; args = apply_arguments s a.args }",
        ]),
        ("apply_literal s l = record { positive = l.positive; atom = apply_atom s l.atom }", ["apply_literal s l = record { positive = l.positive; atom = l.atom }"]),
    ]),
    ("followed_by", "Substitutions", [
        ("followed_by s r x = apply_term r (s x)", [
            "followed_by s r x = apply_term s (r x)",
            "followed_by s r x = s x",
            "followed_by s r x = r x",
            "followed_by s r x = apply_term s (s x)",
        ]),
    ]),
    ("IsInstance", "Substitutions", [
        ("IsInstance a b = (s : Substitution) × (apply_atom s a ≡ b)", [
            "IsInstance a b = (s : Substitution) × (apply_atom s b ≡ a)",
            "IsInstance a b = (s : Substitution) × (apply_atom s a ≡ apply_atom s b)",
            "IsInstance a b = (s : Substitution) × (t : Substitution) × (apply_atom s a ≡ apply_atom t b)",
            "IsInstance a b = (s : Substitution) × (a ≡ b)",
            "IsInstance a b = (s : Substitution) × ((apply_atom s a).args ≡ b.args)",
        ]),
    ]),
    ("Generalizes", "Substitutions", [
        ("Generalizes Any q = ⊤", [
            "Generalizes Any q = ⊥",
            "Generalizes Any Any = ⊤\nGeneralizes Any (Of b) = ⊥",
        ]),
        ("Generalizes (Of a) Any = ⊥", ["Generalizes (Of a) Any = ⊤"]),
        ("Generalizes (Of a) (Of b) = IsInstance a b", [
            "Generalizes (Of a) (Of b) = IsInstance a b × IsInstance b a",
            "Generalizes (Of a) (Of b) = ⊤",
        ]),
    ]),
    ("IsVariant", "Substitutions", [
        ("IsVariant p q = Generalizes p q × Generalizes q p", [
            "IsVariant p q = Generalizes p q × Generalizes p q",
            "IsVariant p q = Generalizes q p × Generalizes q p",
            "IsVariant p q = p ≡ q",
            "IsVariant p q = ¬ (¬ Generalizes p q × ¬ Generalizes q p)",
            "IsVariant p q = Generalizes p q × ¬ Generalizes q p",
        ]),
    ]),
    ("IsStrictlyMoreGeneral", "Substitutions", [
        ("IsStrictlyMoreGeneral p q = Generalizes p q × ¬ Generalizes q p", [
            "IsStrictlyMoreGeneral p q = Generalizes p q",
            "IsStrictlyMoreGeneral p q = Generalizes q p × ¬ Generalizes p q",
            "IsStrictlyMoreGeneral p q = ¬ Generalizes q p",
            "IsStrictlyMoreGeneral p q = Generalizes p q × ¬ (p ≡ q)",
            "IsStrictlyMoreGeneral p q = Generalizes p q × Generalizes q p",
        ]),
    ]),
    ("variables", "Variables", [
        ("term_variables (Var x) = x ∷ []", ["term_variables (Var x) = []"]),
        ("term_variables (App f ts) = variables_of ts", [
            "term_variables (App f ts) = []",
            "term_variables (App f ts) = f ∷ variables_of ts",
        ]),
        ("variables_of (Cons t ts) = term_variables t ++ variables_of ts", [
            "variables_of (Cons t ts) = variables_of ts ++ term_variables t",
            "variables_of (Cons t ts) = term_variables t",
        ]),
    ]),
    ("ground", "Variables", [
        ("is_ground (Var x) = false", ["is_ground (Var x) = true"]),
        ("is_ground (App f ts) = are_ground ts", [
            "is_ground (App f ts) = true",
            "is_ground (App f ts) = false",
        ]),
        ("are_ground (Cons t ts) = is_ground t && are_ground ts", [
            "are_ground (Cons t ts) = is_ground t",
            ("are_ground (Cons t ts) = is_ground t || are_ground ts", "Rattle.std.specs.Prelude.{◌||◌}"),
        ]),
    ]),
    ("weight", "Variables", [
        ("weight (Var x) = 1", ["weight (Var x) = 0"]),
        ("weight (App f ts) = 1 + weights ts", [
            "weight (App f ts) = weights ts",
            "weight (App f ts) = 2 + weights ts",
            "weight (App f ts) = max 1 (weights ts)",
        ]),
        ("weights (Cons t ts) = weight t + weights ts", ["weights (Cons t ts) = max (weight t) (weights ts)"]),
    ]),
    ("depth", "Variables", [
        ("depth (Var x) = 1", [
            "depth (Var x) = 0",
            "depth (Var x) = 2",
        ]),
        ("depth (App f ts) = 1 + depths ts", [
            "depth (App f ts) = 2 + depths ts",
            "depth (App f ts) = max 1 (depths ts)",
            "depth (App f ts) = 1 + weights ts",
        ]),
        ("depths (Cons t ts) = max (depth t) (depths ts)", [
            "depths (Cons t ts) = depth t + depths ts",
            "depths (Cons t ts) = max (depth t) (1 + depths ts)",
        ]),
    ]),
    ("is_numbered_from", "Variables", [
        ("is_numbered_from n [] = true", ["is_numbered_from n [] = eqb n 0"]),
        ("if ltb x n then is_numbered_from n xs else (eqb x n && is_numbered_from (n + 1) xs)", [
            "if ltb x n then is_numbered_from n xs else (eqb x n && is_numbered_from n xs)",
            "if ltb x n then is_numbered_from n xs else eqb x n",
            "if ltb x n then true else (eqb x n && is_numbered_from (n + 1) xs)",
            "if ltb x n then false else (eqb x n && is_numbered_from (n + 1) xs)",
        ]),
    ]),
    ("canonical", "Variables", [
        ("if list_any (eqb x) seen then first_ones seen xs else first_ones (seen ++ x ∷ []) xs", [
            "if list_any (eqb x) seen then first_ones seen xs else first_ones (x ∷ seen) xs",
            "if list_any (eqb x) seen then first_ones seen xs else first_ones seen xs",
            "if list_any (eqb x) seen then first_ones (seen ++ x ∷ []) xs else first_ones (seen ++ x ∷ []) xs",
        ]),
        ("place_of x (y ∷ ys) = if eqb x y then 0 else 1 + place_of x ys", ["place_of x (y ∷ ys) = if eqb x y then 1 else 1 + place_of x ys"]),
        ("canonical a = let names = first_ones [] (variables_of a.args) in apply_atom (λ x. Var (place_of x names)) a", ["canonical a = let names = first_ones (0 ∷ []) (variables_of a.args) in apply_atom (λ x. Var (place_of x names)) a"]),
    ]),
    ("literal_depth", "Measures", [
        ("literal_depth l = depths l.atom.args", [
            "literal_depth l = 1 + depths l.atom.args",
            "literal_depth l = weights l.atom.args",
            "literal_depth l = 0",
        ]),
    ]),
    ("literal_weight", "Measures", [
        ("literal_weight l = 1 + weights l.atom.args", [
            "literal_weight l = weights l.atom.args",
            "literal_weight l = 2 + weights l.atom.args",
            "literal_weight l = 1 + depths l.atom.args",
        ]),
        ("literals_weight ls = sum_by literal_weight ls", ["literals_weight ls = 1 + sum_by literal_weight ls"]),
        ("list_weight list = sum_by (λ i. literals_weight i.literals) list", ["list_weight list = sum_by (λ i. 1 + literals_weight i.literals) list"]),
    ]),
    ("complement", "Measures", [
        ("complement l = record { positive = not l.positive; atom = l.atom }", [
            "complement l = record { positive = l.positive; atom = l.atom }",
            ("complement l = record { positive = false; atom = l.atom }", "Rattle.std.specs.Prelude.{false}"),
            ("complement l = record { positive = true; atom = l.atom }", "Rattle.std.specs.Prelude.{true}"),
            "complement l = record { positive = not l.positive; atom = canonical l.atom }",
        ]),
    ]),
    ("canonical_literal", "Measures", [
        ("canonical_literal l = record { positive = l.positive; atom = canonical l.atom }", [
            "canonical_literal l = record { positive = l.positive; atom = l.atom }",
            "canonical_literal l = record { positive = not l.positive; atom = canonical l.atom }",
        ]),
    ]),
    ("StandsAt", "Context", [
        ("StandsAt context k e = slice_get context k ≡ Some e", [
            "StandsAt context k e = slice_get (e ∷ context) k ≡ Some e",
            "StandsAt context k e = (j : ℕ) × (slice_get context j ≡ Some e)",
        ]),
    ]),
    ("pseudo", "Context", [
        ("kind = Parametric; reason = Pseudo", [
            "kind = Universal; reason = Pseudo",
            ("kind = Parametric; reason = SplitLeft", "Rattle.me_terms.specs.Values.{SplitLeft}"),
        ]),
        ("record { positive = positive; atom = Any", [
            ("record { positive = false; atom = Any", "Rattle.std.specs.Prelude.{false}"),
            ("record { positive = not positive; atom = Any", "Rattle.std.specs.Prelude.{not}"),
        ]),
    ]),
    ("IsLiteralEntry", "Context", [
        ("IsAtomWith P Any = ⊥", ["IsAtomWith P Any = Unit {0}"]),
        ("IsAtomWith (λ a. IsTrue (is_canonical a) × (IsTrue (are_ground a.args) → e.kind ≡ Universal)) e.atom", [
            "IsAtomWith (λ a. Unit {0} × (IsTrue (are_ground a.args) → e.kind ≡ Universal)) e.atom",
            "IsAtomWith (λ a. IsTrue (is_canonical a) × Unit {0}) e.atom",
            "IsAtomWith (λ a. IsTrue (is_canonical a) × (IsTrue (are_ground a.args) → e.kind ≡ Parametric)) e.atom",
            "IsAtomWith (λ a. IsTrue (is_canonical a) × (e.kind ≡ Universal → IsTrue (are_ground a.args))) e.atom",
        ]),
    ]),
    ("IsContext", "Context", [
        ("pub first : (positive : Bool) × StandsAt context 0 (pseudo positive)", ["pub first : (positive : Bool) × (positive ≡ positive)"]),
        ("(k : ℕ) (e : EntryValue) → 0 < k → StandsAt context k e → IsLiteralEntry e", [
            "(k : ℕ) (e : EntryValue) → 1 < k → StandsAt context k e → IsLiteralEntry e",
            "(k : ℕ) (e : EntryValue) → k ≡ 1 → StandsAt context k e → IsLiteralEntry e",
            "(k : ℕ) (e : EntryValue) → 0 < k → StandsAt context k e → StandsAt context k e",
            "(k : ℕ) (e : EntryValue) → (k ≡ k) → StandsAt context k e → IsLiteralEntry e",
        ]),
    ]),
    ("Covers", "Context", [
        ("pub is_universal : universal.kind ≡ Universal", [
            "pub is_universal : universal.kind ≡ Parametric",
            "pub is_universal : entry.kind ≡ Universal",
        ]),
        ("pub same_sign : universal.positive ≡ entry.positive", [
            "pub same_sign : universal.positive ≡ universal.positive",
            ("pub same_sign : universal.positive ≡ not entry.positive", "Rattle.std.specs.Prelude.{not}"),
        ]),
        ("pub generalizes : Generalizes universal.atom entry.atom", [
            "pub generalizes : Generalizes entry.atom universal.atom",
            ("pub generalizes : IsStrictlyMoreGeneral universal.atom entry.atom", "Rattle.me_terms.specs.Substitutions.{IsStrictlyMoreGeneral}"),
        ]),
    ]),
    ("Hides", "Context", [
        ("pub is_later : k < j", ["pub is_later : j < k"]),
        ("pub stands : StandsAt context j later", ["pub stands : StandsAt context k later"]),
        ("pub covers : Covers later e", ["pub covers : Covers e later"]),
    ]),
    ("IsHidden, IsVisible", "Context", [
        ("IsHidden context k e = (j : ℕ) × (later : EntryValue) × Hides context k e j later", [
            "IsHidden context k e = (j : ℕ) × (later : EntryValue) × Hides context j later k e",
            "IsHidden context k e = (j : ℕ) × (later : EntryValue) × Hides context k e k later",
            "IsHidden context k e = (j : ℕ) (later : EntryValue) → Hides context k e j later",
        ]),
        ("IsVisible context k e = StandsAt context k e × ¬ IsHidden context k e", [
            "IsVisible context k e = StandsAt context k e × Unit {0}",
            "IsVisible context k e = Unit {0} × ¬ IsHidden context k e",
        ]),
    ]),
    ("add", "Context", [
        ("add context e = context ++ e ∷ []", [
            "add context e = e ∷ context",
            "add context e = context",
            "add context e = context ++ e ∷ e ∷ []",
        ]),
    ]),
    ("Unifiable", "Contradictory", [
        ("(s : Substitution) × (t : Substitution) × (apply_atom s a ≡ apply_atom t b)", [
            "(s : Substitution) × (t : Substitution) × (apply_atom s a ≡ apply_atom s b)",
            "(s : Substitution) × (t : Substitution) × (apply_atom s a ≡ b)",
            "(s : Substitution) × (t : Substitution) × (a ≡ apply_atom t b)",
        ]),
    ]),
    ("Clash", "Contradictory", [
        ("Clash Universal p Universal q = Unifiable p q", ["Clash Universal p Universal q = Generalizes p q"]),
        ("Clash Universal p Parametric q = Generalizes p q", [
            "Clash Universal p Parametric q = Unifiable p q",
            "Clash Universal p Parametric q = IsVariant p q",
        ]),
        ("Clash Parametric p Universal q = Generalizes q p", [
            "Clash Parametric p Universal q = Generalizes p q",
            "Clash Parametric p Universal q = IsVariant p q",
        ]),
        ("Clash Parametric p Parametric q = IsVariant p q", [
            "Clash Parametric p Parametric q = Unifiable p q",
            "Clash Parametric p Parametric q = Generalizes q p",
            "Clash Parametric p Parametric q = p ≡ q",
        ]),
    ]),
    ("Contradicts", "Contradictory", [
        ("(e.positive ≡ not positive) × Clash e.kind e.atom kind p", [
            "(e.positive ≡ positive) × Clash e.kind e.atom kind p",
            "(e.positive ≡ e.positive) × Clash e.kind e.atom kind p",
            "(e.positive ≡ not positive) × Clash kind e.atom e.kind p",
            "(e.positive ≡ not positive) × Clash e.kind p kind e.atom",
        ]),
        ("(k : ℕ) × (e : EntryValue) × IsVisible context k e × (e.positive", ["(k : ℕ) × (e : EntryValue) × (¬ IsVisible context k e) × (e.positive"]),
    ]),
    ("IsConsistent", "Contradictory", [
        ("IsVisible context k e → ¬ Contradicts context e.positive e.kind e.atom", [
            "IsVisible context k e → ¬ Contradicts context (not e.positive) e.kind e.atom",
            "IsVisible context k e → e.kind ≡ Universal → ¬ Contradicts context e.positive e.kind e.atom",
            "IsVisible context k e → e.kind ≡ Parametric → ¬ Contradicts context e.positive e.kind e.atom",
            "IsVisible context k e → e.positive ≡ e.positive",
        ]),
    ]),
    ("HasException", "Produces", [
        ("IsVisible context j f × Generalizes f.atom (Of a)", ["IsVisible context j f × Generalizes (Of a) f.atom"]),
        ("× ((f.kind ≡ Universal) ⊎ ((f.kind ≡ Parametric) × IsStrictlyMoreGeneral e.atom f.atom))", [
            "× ((f.kind ≡ Universal) ⊎ (f.kind ≡ Universal))",
            "× ((f.kind ≡ Universal) ⊎ ((f.kind ≡ Parametric) × Generalizes e.atom f.atom))",
            "× ((f.kind ≡ Universal) ⊎ ((f.kind ≡ Parametric) × IsStrictlyMoreGeneral f.atom e.atom))",
            "× IsStrictlyMoreGeneral e.atom f.atom",
            "× (f.positive ≡ e.positive) × ((f.kind ≡ Universal) ⊎ ((f.kind ≡ Parametric) × IsStrictlyMoreGeneral e.atom f.atom))",
            ("× (f.positive ≡ not e.positive) × ((f.kind ≡ Universal) ⊎ ((f.kind ≡ Parametric) × IsStrictlyMoreGeneral e.atom f.atom))", "Rattle.std.specs.Prelude.{not}"),
        ]),
    ]),
    ("Produces", "Produces", [
        ("pub visible : IsVisible context k e", [("pub visible : StandsAt context k e", "Rattle.me_terms.specs.Context.{StandsAt}")]),
        ("pub same_sign : e.positive ≡ l.positive", [
            "pub same_sign : l.positive ≡ l.positive",
            ("pub same_sign : e.positive ≡ not l.positive", "Rattle.std.specs.Prelude.{not}"),
        ]),
        ("pub generalizes : Generalizes e.atom (Of l.atom)", ["pub generalizes : IsStrictlyMoreGeneral e.atom (Of l.atom)"]),
        ("pub undisputed : (e.kind ≡ Universal) ⊎ (¬ HasException context e l.atom)", ["pub undisputed : (e.kind ≡ Parametric) ⊎ (¬ HasException context e l.atom)"]),
    ]),
    ("IsInduced, IsTrueIn", "Produces", [
        ("IsInduced context a = IsProduced context (record { positive = true; atom = a })", [
            ("IsInduced context a = IsProduced context (record { positive = false; atom = a })", "Rattle.std.specs.Prelude.{false}"),
            ("IsInduced context a = ¬ IsProduced context (record { positive = false; atom = a })", "Rattle.std.specs.Prelude.{false}"),
        ]),
        ("IsTrueIn context l = MatchBool l.positive (IsInduced context l.atom) (¬ IsInduced context l.atom)", [
            "IsTrueIn context l = MatchBool l.positive (¬ IsInduced context l.atom) (IsInduced context l.atom)",
            "IsTrueIn context l = MatchBool l.positive (IsInduced context l.atom) (IsProduced context l)",
            "IsTrueIn context l = IsInduced context l.atom",
        ]),
    ]),
    ("positions_of, entry_at", "Positions", [
        ("positions_of None tuple = map Some tuple", ["positions_of None tuple = insert (map Some tuple) 0 None"]),
        ("positions_of (Some skip) tuple = insert (map Some tuple) skip None", [
            "positions_of (Some skip) tuple = insert (map Some tuple) 0 None",
            "positions_of (Some skip) tuple = insert (map Some tuple) (length tuple) None",
            "positions_of (Some skip) tuple = map Some tuple",
        ]),
        ("entry_at context None = None", ["entry_at context None = slice_get context 0"]),
    ]),
    ("StandsAgainst", "Positions", [
        ("pub literal : slice_get literals i ≡ Some l", [
            "pub literal : l ≡ l",
            "pub literal : slice_get literals 0 ≡ Some l",
        ]),
        ("pub position : slice_get positions i ≡ Some (Some k)", [
            "pub position : k ≡ k",
            "pub position : slice_get positions 0 ≡ Some (Some k)",
        ]),
        ("pub stands : StandsAt context k e", ["pub stands : StandsAt context i e"]),
    ]),
    ("AreOpposite", "Positions", [
        ("pub each_place : length positions ≡ length literals", [
            "pub each_place : length literals ≡ length literals",
            ("pub each_place : length positions ≤ length literals", "Rattle.std.specs.Prelude.{◌≤◌}"),
        ]),
        ("(e : EntryValue) × IsVisible context k e × (e.positive ≡ not l.positive)", [
            "(e : EntryValue) × StandsAt context k e × (e.positive ≡ not l.positive)",
            "(e : EntryValue) × IsVisible context k e × (e.positive ≡ e.positive)",
        ]),
    ]),
    ("IsSolvedBy", "Unifier", [
        ("IsSolvedBy t Any s a = ⊤", ["IsSolvedBy t Any s a = ⊥"]),
        ("IsSolvedBy t (Of b) s a = apply_atom t b ≡ apply_atom s a", [
            "IsSolvedBy t (Of b) s a = apply_atom t b ≡ a",
            "IsSolvedBy t (Of b) s a = b ≡ apply_atom s a",
            "IsSolvedBy t (Of b) s a = apply_atom s b ≡ apply_atom s a",
            "IsSolvedBy t (Of b) s a = (apply_atom t b).args ≡ (apply_atom s a).args",
        ]),
    ]),
    ("Solves", "Unifier", [
        ("IsSolvedBy (u (i + 1)) e.atom (u 0) l.atom", [
            "IsSolvedBy (u 1) e.atom (u 0) l.atom",
            "IsSolvedBy (u i) e.atom (u 0) l.atom",
            "IsSolvedBy (u 0) e.atom (u 0) l.atom",
            "IsSolvedBy (u (k + 1)) e.atom (u 0) l.atom",
            "IsSolvedBy (u (i + 1)) e.atom (u (i + 1)) l.atom",
        ]),
    ]),
    ("IsUnifier", "Unifier", [
        ("pub solves : Solves context literals positions u", ["pub solves : u ≡ u"]),
        ("pub most_general : (v : Family) → Solves context literals positions v → (r : Substitution) × ((space x : ℕ) → apply_term r (u space x) ≡ v space x)", [
            "pub most_general : u ≡ u",
            "pub most_general : (v : Family) → Solves context literals positions v → (r : Substitution) × ((space x : ℕ) → apply_term r (v space x) ≡ u space x)",
            "pub most_general : (v : Family) → Solves context literals positions v → (r : Substitution) × ((space x : ℕ) → apply_term r (u space 0) ≡ v space 0)",
        ]),
    ]),
    ("IsContextUnifier", "Unifier", [
        ("pub opposite : AreOpposite context literals (positions_of skip tuple)", ["pub opposite : skip ≡ skip"]),
        ("pub unifier : IsUnifier context literals (positions_of skip tuple) u", [
            "pub unifier : skip ≡ skip",
            "pub unifier : Solves context literals (positions_of skip tuple) u",
        ]),
    ]),
    ("unified", "Unifier", [
        ("unified u l = apply_literal (u 0) l", [
            "unified u l = apply_literal (u 1) l",
            "unified u l = l",
        ]),
    ]),
    ("remains", "Remainder", [
        ("is_remaining kind Any s = true", ["is_remaining kind Any s = false"]),
        ("is_remaining Universal (Of a) s = false", ["is_remaining Universal (Of a) s = list_any (λ x. not (is_variable (s x))) (variables_of a.args)"]),
        ("is_remaining Parametric (Of a) s = list_any (λ x. not (is_variable (s x))) (variables_of a.args)", [
            "is_remaining Parametric (Of a) s = false",
            ("is_remaining Parametric (Of a) s = list_all (λ x. not (is_variable (s x))) (variables_of a.args)", "Rattle.std.specs.List.{list_all}"),
        ]),
        ("remains_at None s = false", ["remains_at None s = true"]),
    ]),
    ("remainder", "Remainder", [
        ("remainder_from i context [] u = []", ["remainder_from i context [] u = i ∷ []"]),
        ("let later = remainder_from (i + 1) context ks u in", [
            "let later = remainder_from i context ks u in",
            "let later = [] in",
        ]),
        ("if remains_at (entry_at context k) (u (i + 1)) then i ∷ later else later", ["if remains_at (entry_at context k) (u (i + 1)) then i ∷ [] else later"]),
        ("remainder context positions u = remainder_from 0 context positions u", ["remainder context positions u = remainder_from 1 context positions u"]),
    ]),
    ("IsProductive", "Productive", [
        ("StandsAgainst context literals positions i l k e → Produces context k e (complement (unified u l))", [
            "StandsAgainst context literals positions i l k e → Produces context k e (unified u l)",
            "StandsAgainst context literals positions i l k e → Produces context k e (complement l)",
            ("StandsAgainst context literals positions i l k e → i ≡ 0 → Produces context k e (complement (unified u l))", "Rattle.std.specs.Prelude.{◌≡◌}"),
            ("StandsAgainst context literals positions i l k e → i ≡ i", "Rattle.std.specs.Prelude.{◌≡◌}"),
        ]),
    ]),
    ("IsProductiveUnifier", "Productive", [
        ("pub clause_at : ClauseAt problem c clause", [
            ("pub clause_at : c ≡ c", "Rattle.std.specs.Prelude.{◌≡◌}"),
            "pub clause_at : ClauseAt problem 0 clause",
        ]),
        ("pub unifier : IsContextUnifier context clause.literals None tuple family", [("pub unifier : c ≡ c", "Rattle.std.specs.Prelude.{◌≡◌}")]),
        ("pub productive : IsProductive context clause.literals (positions_of None tuple) family", [("pub productive : c ≡ c", "Rattle.std.specs.Prelude.{◌≡◌}")]),
    ]),
    ("Fits", "Fits", [
        ("(literal_depth l ≤ bounds.depth) × (literal_weight l ≤ bounds.weight)", [
            "(literal_depth l ≤ bounds.depth) × (literal_weight l ≤ literal_weight l)",
            ("(literal_depth l < bounds.depth) × (literal_weight l ≤ bounds.weight)", "Rattle.std.specs.Prelude.{◌<◌}"),
            ("(literal_depth l ≤ bounds.depth) × (literal_weight l < bounds.weight)", "Rattle.std.specs.Prelude.{◌<◌}"),
            "(literal_depth l ≤ bounds.weight) × (literal_weight l ≤ bounds.depth)",
        ]),
    ]),
    ("IsClose", "Close", [
        ("pub clause_at : ClauseAt problem c clause", [
            "pub clause_at : c ≡ c",
            "pub clause_at : ClauseAt problem 0 clause",
        ]),
        ("pub unifier : IsContextUnifier context clause.literals None tuple family", ["pub unifier : c ≡ c"]),
        ("pub no_remainder : remainder context (positions_of None tuple) family ≡ []", [
            "pub no_remainder : c ≡ c",
            "pub no_remainder : ¬ (remainder context (positions_of None tuple) family ≡ [])",
            "pub no_remainder : remainder context [] family ≡ []",
        ]),
    ]),
    ("asserted_kind", "Assert", [
        ("uses_universal None = true", ["uses_universal None = false"]),
        ("if list_all (λ k. uses_universal (entry_at context k)) positions || are_ground l.atom.args then Universal else Parametric", [
            ("if list_all (λ k. uses_universal (entry_at context k)) positions && are_ground l.atom.args then Universal else Parametric", "Rattle.std.specs.Prelude.{◌&&◌}"),
            ("if list_any (λ k. uses_universal (entry_at context k)) positions || are_ground l.atom.args then Universal else Parametric", "Rattle.std.specs.List.{list_any}"),
            "if list_all (λ k. uses_universal (entry_at context k)) positions then Universal else Parametric",
        ]),
    ]),
    ("IsSubsumed", "Assert", [
        ("IsVisible context k e × (e.kind ≡ Universal) × (e.positive ≡ l.positive) × Generalizes e.atom (Of l.atom)", [
            "IsVisible context k e × (e.kind ≡ Universal) × (e.positive ≡ e.positive) × Generalizes e.atom (Of l.atom)",
            "IsVisible context k e × (e.kind ≡ e.kind) × (e.positive ≡ l.positive) × Generalizes e.atom (Of l.atom)",
            "IsVisible context k e × (e.kind ≡ Universal) × (e.positive ≡ l.positive) × IsVariant e.atom (Of l.atom)",
            ("IsVisible context k e × (e.kind ≡ Universal) × (e.positive ≡ l.positive) × IsStrictlyMoreGeneral e.atom (Of l.atom)", "Rattle.me_terms.specs.Substitutions.{IsStrictlyMoreGeneral}"),
        ]),
    ]),
    ("HasVariant", "Assert", [
        ("IsVisible context k e × (e.positive ≡ l.positive) × IsVariant e.atom (Of l.atom)", [
            "IsVisible context k e × (e.positive ≡ e.positive) × IsVariant e.atom (Of l.atom)",
            ("IsVisible context k e × (e.positive ≡ not l.positive) × IsVariant e.atom (Of l.atom)", "Rattle.std.specs.Prelude.{not}"),
            "IsVisible context k e × (e.positive ≡ l.positive) × Generalizes e.atom (Of l.atom)",
            "IsVisible context k e × (e.positive ≡ l.positive) × Generalizes (Of l.atom) e.atom",
            "IsVisible context k e × (e.kind ≡ Universal) × (e.positive ≡ l.positive) × IsVariant e.atom (Of l.atom)",
        ]),
    ]),
    ("MayAssert", "Assert", [
        ("pub consistent : ¬ IsContradictory context l kind", ["pub consistent : kind ≡ kind"]),
        ("pub not_subsumed : ¬ IsSubsumed context l", [
            "pub not_subsumed : kind ≡ Universal → ¬ IsSubsumed context l",
            "pub not_subsumed : kind ≡ Parametric → ¬ IsSubsumed context l",
        ]),
        ("pub no_variant : kind ≡ Parametric → ¬ HasVariant context l", ["pub no_variant : kind ≡ Universal → ¬ HasVariant context l"]),
    ]),
    ("asserted_entry", "Assert", [
        ("  positive = l.positive;\n  atom = Of l.atom;\n  kind = asserted_kind context (positions_of (Some place) tuple) l;\n  reason = Asserted c place tuple;", [
            ("  positive = not l.positive;\n  atom = Of l.atom;\n  kind = asserted_kind context (positions_of (Some place) tuple) l;\n  reason = Asserted c place tuple;", "Rattle.std.specs.Prelude.{not}"),
            "  positive = l.positive;\n  atom = Of l.atom;\n  kind = Universal;\n  reason = Asserted c place tuple;",
            "  positive = l.positive;\n  atom = Of l.atom;\n  kind = Parametric;\n  reason = Asserted c place tuple;",
            "  positive = l.positive;\n  atom = Of l.atom;\n  kind = asserted_kind context (positions_of (Some place) tuple) l;\n  reason = Asserted place c tuple;",
            "  positive = l.positive;\n  atom = Of l.atom;\n  kind = asserted_kind context (positions_of (Some place) tuple) l;\n  reason = Asserted c place [];",
        ]),
    ]),
    ("IsAssert", "Assert", [
        ("pub clause_at : ClauseAt problem c clause", ["pub clause_at : c ≡ c"]),
        ("pub literal_at : slice_get clause.literals place ≡ Some literal", ["pub literal_at : c ≡ c"]),
        ("pub unifier : IsContextUnifier context clause.literals (Some place) tuple family", ["pub unifier : c ≡ c"]),
        ("pub no_remainder : remainder context (positions_of (Some place) tuple) family ≡ []", ["pub no_remainder : c ≡ c"]),
        ("pub allowed : MayAssert bounds context (canonical_literal (unified family literal)) e.kind", ["pub allowed : MayAssert bounds context (canonical_literal (unified family literal)) Parametric"]),
    ]),
    ("split_kind", "Split", [
        ("split_kind l = if are_ground l.atom.args then Universal else Parametric", [
            "split_kind l = if are_ground l.atom.args then Parametric else Parametric",
            "split_kind l = if are_ground l.atom.args then Universal else Universal",
            "split_kind l = if are_ground l.atom.args then Parametric else Universal",
        ]),
    ]),
    ("IsSplit", "Split", [
        ("pub remains : Contains (remainder context (positions_of None tuple) family) place", [
            "pub remains : place ≡ place",
            "pub remains : slice_get (remainder context (positions_of None tuple) family) 0 ≡ Some place",
        ]),
        ("pub size_of : size ≡ length (remainder context (positions_of None tuple) family)", [
            "pub size_of : size ≡ length clause.literals",
            "pub size_of : size ≡ size",
        ]),
        ("pub split_literal : l ≡ canonical_literal (unified family literal)", ["pub split_literal : l ≡ unified family literal"]),
    ]),
    ("Precedes", "Order", [
        ("Precedes [] other = ⊤", ["Precedes [] [] = ⊥\nPrecedes [] (y ∷ other) = ⊤"]),
        ("Precedes (x ∷ key) (y ∷ other) = (x < y) ⊎ ((x ≡ y) × Precedes key other)", [
            "Precedes (x ∷ key) (y ∷ other) = (y < x) ⊎ ((x ≡ y) × Precedes key other)",
            "Precedes (x ∷ key) (y ∷ other) = (x < y) ⊎ Precedes key other",
        ]),
    ]),
    ("clause_key", "Order", [
        ("clause_key c tuple = c ∷ tuple", [
            "clause_key c tuple = tuple ++ c ∷ []",
            "clause_key c tuple = tuple",
            "clause_key c tuple = c ∷ []",
        ]),
    ]),
    ("assert_key", "Order", [
        ("kind_rank Universal = 0", [
            "kind_rank Universal = 2",
            "kind_rank Universal = 1",
        ]),
        ("pattern_weight (Of a) = 1 + weights a.args", ["pattern_weight (Of a) = 1"]),
        ("assert_key c place tuple e = kind_rank e.kind ∷ pattern_weight e.atom ∷ c ∷ place ∷ tuple", [
            "assert_key c place tuple e = pattern_weight e.atom ∷ kind_rank e.kind ∷ c ∷ place ∷ tuple",
            "assert_key c place tuple e = kind_rank e.kind ∷ pattern_weight e.atom ∷ c ∷ tuple ++ place ∷ []",
        ]),
    ]),
    ("split_key", "Order", [
        ("split_key c tuple place size l = size ∷ literal_weight l ∷ c ∷ tuple ++ place ∷ []", [
            "split_key c tuple place size l = literal_weight l ∷ size ∷ c ∷ tuple ++ place ∷ []",
            "split_key c tuple place size l = size ∷ literal_weight l ∷ c ∷ place ∷ tuple",
            "split_key c tuple place size l = literal_weight l ∷ c ∷ tuple ++ place ∷ []",
            "split_key c tuple place size l = size ∷ c ∷ tuple ++ place ∷ []",
            "split_key c tuple place size l = size ∷ literal_weight l ∷ c ∷ place ∷ []",
        ]),
    ]),
    ("IsLeastClose", "Order", [
        ("IsClose problem context c' tuple' → Precedes (clause_key c tuple) (clause_key c' tuple')", [
            "IsClose problem context c' tuple' → Precedes (clause_key c' tuple') (clause_key c tuple)",
            "IsClose problem context c' tuple' → c ≡ c' → Precedes (clause_key c tuple) (clause_key c' tuple')",
            "IsClose problem context c' tuple' → tuple ≡ tuple' → Precedes (clause_key c tuple) (clause_key c' tuple')",
            "IsClose problem context c' tuple' → c ≡ c",
        ]),
        ("    IsClose problem context c tuple\n", ["    (c ≡ c)\n"]),
    ]),
    ("IsLeastAssert", "Order", [
        ("Precedes (assert_key c place tuple e) (assert_key c' place' tuple' e')", [
            "Precedes (assert_key c' place' tuple' e') (assert_key c place tuple e)",
            "e.kind ≡ e'.kind → Precedes (assert_key c place tuple e) (assert_key c' place' tuple' e')",
            "c ≡ c' → Precedes (assert_key c place tuple e) (assert_key c' place' tuple' e')",
            "c ≡ c",
            "Precedes (clause_key c tuple) (clause_key c' tuple')",
        ]),
        ("(c place : ℕ) × (tuple : List ℕ) × IsAssert problem bounds context c place tuple e", ["(c place : ℕ) × (tuple : List ℕ) × (c ≡ c)"]),
    ]),
    ("IsLeastSplit", "Order", [
        ("Precedes (split_key c tuple place size l) (split_key c' tuple' place' size' l')", [
            "Precedes (split_key c' tuple' place' size' l') (split_key c tuple place size l)",
            "c ≡ c' → Precedes (split_key c tuple place size l) (split_key c' tuple' place' size' l')",
            "c ≡ c",
            "Precedes (clause_key c tuple) (clause_key c' tuple')",
        ]),
        ("(c place size : ℕ) × (tuple : List ℕ) × IsSplit problem bounds context c place tuple size l", ["(c place size : ℕ) × (tuple : List ℕ) × (c ≡ c)"]),
    ]),
    ("HasRoom", "Next", [
        ("HasRoom bounds context = length context < bounds.literals", [
            "HasRoom bounds context = length context ≤ bounds.literals",
            "HasRoom bounds context = length context < bounds.list",
            "HasRoom bounds context = bounds.literals ≤ length context",
            "HasRoom bounds context = (n : ℕ) × (length context ≡ n)",
            "HasRoom bounds context = (length context < bounds.literals) × (length context < bounds.depth)",
        ]),
    ]),
    ("IsFirstRemaining", "Next", [
        ("pub productive : IsProductiveUnifier problem context c tuple clause family", ["pub productive : c ≡ c"]),
        ("IsProductiveUnifier problem context c' tuple' clause' family' → Precedes (clause_key c tuple) (clause_key c' tuple')", [
            "IsProductiveUnifier problem context c' tuple' clause' family' → Precedes (clause_key c' tuple') (clause_key c tuple)",
            "IsProductiveUnifier problem context c' tuple' clause' family' → c ≡ c",
        ]),
        ("pub first_place : remainder context (positions_of None tuple) family ≡ place ∷ others", [
            ("pub first_place : remainder context (positions_of None tuple) family ≡ others ++ place ∷ []", "Rattle.std.specs.Prelude.{◌++◌, []}"),
            "pub first_place : (n : ℕ) × (slice_get (remainder context (positions_of None tuple) family) n ≡ Some place)",
        ]),
        ("pub unified_literal : l ≡ unified family literal", ["pub unified_literal : l ≡ literal"]),
    ]),
    ("IsBeyond", "Next", [
        ("IsBeyond bound.Weight bounds l = (literal_depth l ≤ bounds.depth) × (bounds.weight < literal_weight l)", [
            "IsBeyond bound.Weight bounds l = (literal_depth l ≤ literal_depth l) × (bounds.weight < literal_weight l)",
            "IsBeyond bound.Weight bounds l = (literal_depth l ≤ bounds.depth) × (bounds.weight ≤ literal_weight l)",
            "IsBeyond bound.Weight bounds l = literal_depth l ≤ bounds.depth",
            "IsBeyond bound.Weight bounds l = (bounds.depth < literal_depth l) × (bounds.weight < literal_weight l)",
        ]),
    ]),
    ("IsFull", "Next", [
        ("IsFull problem bounds context = ¬ HasRoom bounds context × (HasAssert problem bounds context ⊎ HasSplit problem bounds context)", [
            "IsFull problem bounds context = HasAssert problem bounds context ⊎ HasSplit problem bounds context",
            "IsFull problem bounds context = HasRoom bounds context × (HasAssert problem bounds context ⊎ HasSplit problem bounds context)",
            "IsFull problem bounds context = ¬ HasRoom bounds context × HasAssert problem bounds context",
            "IsFull problem bounds context = ¬ HasRoom bounds context × HasAssert problem bounds context × HasSplit problem bounds context",
            "IsFull problem bounds context = ¬ HasRoom bounds context × (HasAssert problem bounds context ⊎ HasProductive problem context)",
        ]),
    ]),
    ("IsStopped", "Next", [
        ("¬ HasAssert problem bounds context × ¬ HasSplit problem bounds context\n", [
            "¬ HasSplit problem bounds context\n",
            "¬ HasAssert problem bounds context\n",
            "HasRoom bounds context × ¬ HasAssert problem bounds context × ¬ HasSplit problem bounds context\n",
        ]),
        ("× ((l : Literal) × IsFirstRemaining problem context l × IsBeyond b bounds l)", [
            "× ((l : Literal) × IsFirstRemaining problem context l)",
            "× HasProductive problem context",
        ]),
    ]),
    ("MeetsBound", "Next", [
        ("MeetsBound problem bounds context bound.Depth = IsStopped problem bounds context bound.Depth", [
            "MeetsBound problem bounds context bound.Depth = IsStopped problem bounds context bound.Weight",
            "MeetsBound problem bounds context bound.Depth = IsStopped problem bounds context bound.Literals",
        ]),
        ("MeetsBound problem bounds context bound.Weight = IsStopped problem bounds context bound.Weight", ["MeetsBound problem bounds context bound.Weight = IsStopped problem bounds context bound.Depth"]),
        ("MeetsBound problem bounds context bound.Literals = IsFull problem bounds context", ["MeetsBound problem bounds context bound.Literals = ¬ HasRoom bounds context"]),
        ("MeetsBound problem bounds context bound.List = ⊥", ["MeetsBound problem bounds context bound.List = ¬ HasRoom bounds context"]),
    ]),
    ("IsNext", "Next", [
        ("IsNext problem bounds context (Close c tuple) = IsLeastClose problem context c tuple", ["IsNext problem bounds context (Close c tuple) = IsLeastClose problem context c tuple × ¬ HasAssert problem bounds context"]),
        ("¬ HasClose problem context × HasRoom bounds context × IsLeastAssert problem bounds context e", [
            "HasRoom bounds context × HasRoom bounds context × IsLeastAssert problem bounds context e",
            "¬ HasClose problem context × HasRoom bounds context × ¬ HasSplit problem bounds context × IsLeastAssert problem bounds context e",
        ]),
        ("¬ HasClose problem context × ¬ HasAssert problem bounds context × HasRoom bounds context\n", [
            "¬ HasClose problem context × HasRoom bounds context\n",
            "¬ HasClose problem context × ¬ HasAssert problem bounds context\n",
        ]),
        ("× IsLeastSplit problem bounds context l × (kind ≡ split_kind l)", ["× HasSplit problem bounds context × (kind ≡ split_kind l)"]),
        ("¬ HasClose problem context × ¬ HasAssert problem bounds context × ¬ HasProductive problem context", [
            "¬ HasClose problem context × ¬ HasAssert problem bounds context × ¬ HasSplit problem bounds context",
            "¬ HasClose problem context × ¬ HasProductive problem context",
        ]),
    ]),
    ("sign_of, start, split_entry, left_of, right_of", "Grown", [
        ("sign_of choice.Negative = false", ["sign_of choice.Negative = true"]),
        ("sign_of choice.Positive = true", ["sign_of choice.Positive = false"]),
        ("start begins = pseudo (sign_of begins) ∷ []", [
            "start begins = []",
            ("start begins = pseudo (not (sign_of begins)) ∷ []", "Rattle.std.specs.Prelude.{not}"),
        ]),
        ("split_entry l kind why = record { positive = l.positive; atom = Of l.atom; kind = kind; reason = why }", [
            ("split_entry l kind why = record { positive = l.positive; atom = Of l.atom; kind = Parametric; reason = why }", "Rattle.me_terms.specs.declared.entry.Kind.TheVariants.{Parametric}"),
            ("split_entry l kind why = record { positive = l.positive; atom = Of l.atom; kind = Universal; reason = why }", "Rattle.me_terms.specs.declared.entry.Kind.TheVariants.{Universal}"),
            "split_entry l kind why = record { positive = l.positive; atom = Of l.atom; kind = kind; reason = SplitLeft }",
        ]),
        ("left_of context l kind = add context (split_entry l kind SplitLeft)", ["left_of context l kind = add context (split_entry l kind SplitRight)"]),
        ("right_of context l kind = add context (split_entry (complement l) kind SplitRight)", [
            "right_of context l kind = add context (split_entry l kind SplitRight)",
            "right_of context l kind = add context (split_entry (complement l) kind SplitLeft)",
            ("right_of context l kind = add context (split_entry (complement l) Universal SplitRight)", "Rattle.me_terms.specs.declared.entry.Kind.TheVariants.{Universal}"),
        ]),
    ]),
    ("IsGrown", "Grown", [
        ("started : IsGrown problem bounds (start bounds.start)", [
            "started : IsGrown problem bounds []",
            "started : {context : Context} → IsGrown problem bounds context",
            "started : IsGrown problem bounds (start choice.Negative)",
        ]),
        ("IsNext problem bounds context (Assert e) → IsGrown problem bounds (add context e)", ["IsNext problem bounds context (Assert e) → IsGrown problem bounds context"]),
    ]),
    ("both", "Outcome", [
        ("both (Sat context) right = Sat context", ["both (Sat context) right = right"]),
        ("both (Closed list) (Sat context) = Sat context", ["both (Closed list) (Sat context) = Closed list"]),
        ("both (Met b) (Sat context) = Sat context", ["both (Met b) (Sat context) = Met b"]),
        ("both (Met b) (Closed list) = Met b", ["both (Met b) (Closed list) = Closed list"]),
        ("both (Met b) (Met c) = Met b", ["both (Met b) (Met c) = Met c"]),
        ("both (Closed list) (Met c) = Met c", ["both (Closed list) (Met c) = Closed list"]),
        ("both (Closed list) (Closed more) = Closed (joined list more)", [
            "both (Closed list) (Closed more) = Closed (joined more list)",
            ("both (Closed list) (Closed more) = Closed (list ++ more)", "Rattle.std.specs.Prelude.{◌++◌}"),
        ]),
    ]),
    ("HasOutcome", "Outcome", [
        ("IsNext problem bounds context (Close c tuple) → IsLeafList problem context c tuple list → HasOutcome problem bounds context (Closed list)", [
            "IsLeafList problem context c tuple list → HasOutcome problem bounds context (Closed list)",
            "IsNext problem bounds context (Close c tuple) → HasOutcome problem bounds context (Closed list)",
            ("IsNext problem bounds context (Close c tuple) → IsLeafList problem context c tuple list → HasOutcome problem bounds context (Closed [])", "Rattle.std.specs.Prelude.{[]}"),
        ]),
        ("is_exhausted : {context : Context} → IsNext problem bounds context Exhausted → HasOutcome problem bounds context (Sat context)", ["is_exhausted : {context : Context} → HasOutcome problem bounds context (Sat context)"]),
        ("HasOutcome problem bounds (left_of context l kind) left → HasOutcome problem bounds (right_of context l kind) right → outcome ≡ both left right", ["HasOutcome problem bounds (left_of context l kind) left → HasOutcome problem bounds (right_of context l kind) right → outcome ≡ both right left"]),
    ]),
    ("demands", "LeafList", [
        ("demands (l ∷ ls) (None ∷ ks) = demands ls ks", [
            "demands (l ∷ ls) (None ∷ ks) = []",
            "demands (l ∷ ls) (None ∷ ks) = demands (l ∷ ls) ks",
        ]),
        ("demands (l ∷ ls) (Some k ∷ ks) = (k, complement l) ∷ demands ls ks", [
            "demands (l ∷ ls) (Some k ∷ ks) = (k, l) ∷ demands ls ks",
            "demands (l ∷ ls) (Some k ∷ ks) = demands ls ks ++ (k, complement l) ∷ []",
            "demands (l ∷ ls) (Some k ∷ ks) = (k, complement l) ∷ []",
        ]),
    ]),
    ("IsAsserted, AddsNothing", "LeafList", [
        ("IsAsserted context k c place tuple = (e : EntryValue) × StandsAt context k e × (e.reason ≡ Asserted c place tuple)", [
            "IsAsserted context k c place tuple = (e : EntryValue) × (j : ℕ) × StandsAt context j e × (e.reason ≡ Asserted c place tuple)",
            ("IsAsserted context k c place tuple = (e : EntryValue) × IsVisible context k e × (e.reason ≡ Asserted c place tuple)", "Rattle.me_terms.specs.Context.{IsVisible}"),
        ]),
        ("Contains before d ⊎ ((c place : ℕ) (tuple : List ℕ) → ¬ IsAsserted context d.0 c place tuple)", [
            "(c place : ℕ) (tuple : List ℕ) → ¬ IsAsserted context d.0 c place tuple",
            "((l : Literal) × Contains before (d.0, l)) ⊎ ((c place : ℕ) (tuple : List ℕ) → ¬ IsAsserted context d.0 c place tuple)",
        ]),
    ]),
    ("Adds", "LeafList", [
        ("none_waits : {before : List Demand} → Adds problem context before [] []", ["none_waits : {before waiting : List Demand} → Adds problem context before waiting []"]),
        ("AddsNothing context before d → Adds problem context before waiting list → Adds problem context before (d ∷ waiting) list", ["Adds problem context before waiting list → Adds problem context before (d ∷ waiting) list"]),
        ("Adds problem context (d ∷ before) (waiting ++ demands literals (positions_of (Some place) tuple)) list", [
            "Adds problem context (d ∷ before) (demands literals (positions_of (Some place) tuple) ++ waiting) list",
            "Adds problem context (d ∷ before) (waiting ++ demands literals (positions_of None tuple)) list",
        ]),
        ("Adds problem context before (d ∷ waiting) (record { clause = c; literals = literals } ∷ list)", ["Adds problem context before (d ∷ waiting) (record { clause = place; literals = literals } ∷ list)"]),
    ]),
    ("IsLeafList", "LeafList", [
        ("× Adds problem context [] (demands literals (positions_of None tuple)) added", ["× Adds problem context [] (demands literals (positions_of (Some 0) tuple)) added"]),
        ("× (list ≡ first_occurrences (record { clause = c; literals = literals } ∷ added))", [
            "× (list ≡ record { clause = c; literals = literals } ∷ added)",
            "× (list ≡ first_occurrences added)",
            "× (list ≡ record { clause = c; literals = literals } ∷ first_occurrences added)",
        ]),
    ]),
    ("constant, instance_of", "ListedInstances", [
        ("constant f = App f Nil", ["constant f = App 0 Nil"]),
        ("instance_of family reading literals = map (λ l. apply_literal reading (unified family l)) literals", [
            "instance_of family reading literals = map (λ l. unified family l) literals",
            "instance_of family reading literals = map (λ l. apply_literal reading l) literals",
            "instance_of family reading literals = map (λ l. apply_literal reading (apply_literal reading (unified family l))) literals",
        ]),
    ]),
    ("IsClosingInstance", "ListedInstances", [
        ("pub is_instance : literals ≡ instance_of family (λ x. constant problem.c0) clause.literals", [
            "pub is_instance : literals ≡ instance_of family (λ x. constant 0) clause.literals",
            "pub is_instance : literals ≡ instance_of family (λ x. constant c) clause.literals",
            "pub is_instance : (reading : Substitution) × (literals ≡ instance_of family reading clause.literals)",
            "pub is_instance : c ≡ c",
        ]),
        ("pub unifier : IsUnifier context clause.literals (positions_of None tuple) family", ["pub unifier : c ≡ c"]),
    ]),
    ("IsAskedInstance", "ListedInstances", [
        ("pub matches : apply_literal matching (unified family literal) ≡ asked", [
            "pub matches : asked ≡ asked",
            "pub matches : (apply_literal matching (unified family literal)).atom ≡ asked.atom",
        ]),
        ("pub others : (x : ℕ) → ¬ Contains (variables_of (unified family literal).atom.args) x → matching x ≡ constant problem.c0", [
            "pub others : place ≡ place",
            "pub others : (x : ℕ) → ¬ Contains (variables_of (unified family literal).atom.args) x → matching x ≡ constant 0",
            "pub others : (x : ℕ) → ¬ Contains (variables_of literal.atom.args) x → matching x ≡ constant problem.c0",
        ]),
        ("pub is_instance : literals ≡ instance_of family matching clause.literals", ["pub is_instance : literals ≡ instance_of family (λ x. constant problem.c0) clause.literals"]),
    ]),
    ("same_instance", "FirstOccurrences", [
        ("same_sign_as true b = b", ["same_sign_as true b = true"]),
        ("same_sign_as false b = not b", ["same_sign_as false b = b"]),
        ("same_literal l m = same_sign_as l.positive m.positive && same_atom l.atom m.atom", [
            "same_literal l m = same_sign_as l.positive m.positive",
            "same_literal l m = same_sign_as l.positive m.positive && eqb l.atom.pred m.atom.pred",
        ]),
        ("same_instance i j = eqb i.clause j.clause && pointwise same_literal i.literals j.literals", [
            "same_instance i j = eqb i.clause j.clause",
            "same_instance i j = pointwise same_literal i.literals j.literals",
        ]),
    ]),
    ("first_occurrences, joined", "FirstOccurrences", [
        ("first_occurrences (i ∷ later) = i ∷ filter (λ j. not (same_instance i j)) (first_occurrences later)", [
            "first_occurrences (i ∷ later) = i ∷ first_occurrences later",
            "first_occurrences (i ∷ later) = filter (λ j. not (same_instance i j)) (first_occurrences later)",
        ]),
        ("joined list more = first_occurrences (list ++ more)", [
            "joined list more = first_occurrences list ++ first_occurrences more",
            "joined list more = first_occurrences list",
        ]),
    ]),
    ("answer_of, HasAnswer", "Answer", [
        ("answer_of bounds (Closed list) = if nat_le (list_weight list) bounds.list then Unsatisfiable list else GaveUp bound.List", [
            "answer_of bounds (Closed list) = if nat_le bounds.list (list_weight list) then Unsatisfiable list else GaveUp bound.List",
            "answer_of bounds (Closed list) = if nat_le (list_weight list) bounds.list then Unsatisfiable list else GaveUp bound.Literals",
            "answer_of bounds (Closed list) = if nat_le (list_weight list) bounds.literals then Unsatisfiable list else GaveUp bound.List",
        ]),
        ("answer_of bounds (Met b) = GaveUp b", ["answer_of bounds (Met b) = GaveUp bound.List"]),
        ("HasOutcome problem bounds (start bounds.start) outcome", [("HasOutcome problem bounds (start Negative) outcome", "Rattle.me_terms.specs.declared.bounds.Start.TheVariants.{Negative}")]),
    ]),
    ("at_depth", "Deepening", [
        ("record { depth = depth;", ["record { depth = bounds.depth;"]),
        ("start = bounds.start }", [("start = Negative }", "Rattle.me_terms.specs.declared.bounds.Start.TheVariants.{Negative}")]),
    ]),
    ("StopsAt", "Deepening", [
        ("pub begun : from ≤ depth", ["pub begun : from ≤ from"]),
        ("pub within : depth ≤ bounds.depth", ["pub within : from ≤ bounds.depth"]),
        ("(e : ℕ) → from ≤ e → e < depth → HasAnswer problem (at_depth bounds e) (GaveUp bound.Depth)", [
            "(e : ℕ) → from ≤ e → e < depth → from ≤ e",
            "(e : ℕ) → e < depth → HasAnswer problem (at_depth bounds e) (GaveUp bound.Depth)",
            "(e : ℕ) → from ≤ e → e < depth → HasAnswer problem (at_depth bounds e) (GaveUp bound.Weight)",
        ]),
        ("HasAnswer problem (at_depth bounds depth) reply", ["HasAnswer problem bounds reply"]),
        ("¬ (reply ≡ GaveUp bound.Depth) ⊎ (depth ≡ bounds.depth)", [
            "¬ (reply ≡ GaveUp bound.Weight) ⊎ (depth ≡ bounds.depth)",
            "¬ (reply ≡ GaveUp bound.Depth)",
            "depth ≡ bounds.depth",
        ]),
    ]),
    ("IsFalseUnder, IsRefuted", "Refuted", [
        ("IsFalseUnder value l = value l.atom ≡ not l.positive", [
            "IsFalseUnder value l = value l.atom ≡ l.positive",
            "IsFalseUnder value l = value l.atom ≡ value l.atom",
            ("IsFalseUnder value l = value l.atom ≡ false", "Rattle.std.specs.Prelude.{false}"),
        ]),
        ("IsRefuted list = (value : Valuation) → Any (λ i. All (IsFalseUnder value) i.literals) list", ["IsRefuted list = (value : Valuation) → Any (λ i. Any (IsFalseUnder value) i.literals) list"]),
    ]),
    ("is_ground_term", "GroundInstances", [
        ("is_ground_term problem (Var x) = false", ["is_ground_term problem (Var x) = true"]),
        ("(takes (slice_get problem.signature.functions f) (count ts) || (eqb f problem.c0 && eqb (count ts) 0))\n      && are_ground_terms problem ts", [
            "(takes (slice_get problem.signature.functions f) (count ts))\n      && are_ground_terms problem ts",
            "(eqb f problem.c0 && eqb (count ts) 0)\n      && are_ground_terms problem ts",
            "(takes (slice_get problem.signature.functions f) (count ts) || eqb f problem.c0)\n      && are_ground_terms problem ts",
            "(takes (slice_get problem.signature.predicates f) (count ts) || (eqb f problem.c0 && eqb (count ts) 0))\n      && are_ground_terms problem ts",
        ]),
        ("are_ground_terms problem (Cons t ts) = is_ground_term problem t && are_ground_terms problem ts", [
            "are_ground_terms problem (Cons t ts) = is_ground_term problem t",
            "are_ground_terms problem (Cons t ts) = are_ground_terms problem ts",
            "are_ground_terms problem (Cons t ts) = is_ground_term problem t || are_ground_terms problem ts",
        ]),
    ]),
    ("IsGroundInstance", "GroundInstances", [
        ("(clause : ClauseValue) × (s : Substitution) × ClauseAt problem c clause\n", [
            "(clause : ClauseValue) × (s : Substitution) × (c ≡ c)\n",
            "(clause : ClauseValue) × (s : Substitution) × ClauseAt problem 0 clause\n",
        ]),
        ("× ((x : ℕ) → IsTrue (is_ground_term problem (s x)))", [
            "× ((x : ℕ) → s x ≡ s x)",
            "× IsTrue (is_ground_term problem (s 0))",
        ]),
        ("× (literals ≡ map (apply_literal s) clause.literals)", ["× (literals ≡ clause.literals)"]),
    ]),
    ("clause_variables, IsValidClause", "Validity", [
        ("clause_variables literals = flat_map (λ l. variables_of l.atom.args) literals", [("clause_variables literals = []", "Rattle.std.specs.Prelude.{[]}")]),
        ("pub known : IsTrue (list_all (λ l. is_known_atom signature l.atom) clause.literals)", [("pub known : clause ≡ clause", "Rattle.std.specs.Prelude.{◌≡◌}")]),
        ("pub numbered : IsTrue (is_numbered_from 0 (clause_variables clause.literals))", [
            ("pub numbered : clause ≡ clause", "Rattle.std.specs.Prelude.{◌≡◌}"),
            "pub numbered : IsTrue (list_all (λ l. is_numbered_from 0 (variables_of l.atom.args)) clause.literals)",
        ]),
        ("pub few_literals : length clause.literals < 2 ^ 32 - 1", ["pub few_literals : 0 < length clause.literals"]),
    ]),
    ("IsValid", "Validity", [
        ("pub few_clauses : length problem.clauses < 2 ^ 32 - 1", ["pub few_clauses : length problem.clauses < 2 ^ 32"]),
        ("pub c0_constant : IsTrue (takes (slice_get problem.signature.functions problem.c0) 0)", [
            ("pub c0_constant : problem.c0 ≡ problem.c0", "Rattle.std.specs.Prelude.{◌≡◌}"),
            ("pub c0_constant : problem.c0 ≡ 0", "Rattle.std.specs.Prelude.{◌≡◌}"),
        ]),
    ]),
    ("IsLawful", "Validity", [
        ("pub depth : (1 ≤ bounds.depth) × (bounds.depth ≤ MAX_DEPTH)", [
            "pub depth : bounds.depth ≤ MAX_DEPTH",
            "pub depth : 1 ≤ bounds.depth",
            "pub depth : (1 ≤ bounds.depth) × (bounds.depth ≤ 65)",
        ]),
        ("pub weight : (1 ≤ bounds.weight) × (bounds.weight ≤ MAX_WEIGHT)", ["pub weight : (1 ≤ bounds.weight) × (bounds.weight ≤ MAX_LIST)"]),
        ("pub literals : (1 ≤ bounds.literals) × (bounds.literals ≤ MAX_ENTRIES)", ["pub literals : (1 ≤ bounds.literals) × (bounds.literals ≤ 65536)"]),
        ("pub list : (1 ≤ bounds.list) × (bounds.list ≤ MAX_LIST)", ["pub list : 1 ≤ bounds.list"]),
    ]),
    ("IsModel", "InducedModel", [
        ("IsGroundInstance problem c literals → Any (IsTrueIn context) literals", [
            ("IsGroundInstance problem c literals → All (IsTrueIn context) literals", "Rattle.std.specs.List.{All}"),
            "IsGroundInstance problem 0 literals → Any (IsTrueIn context) literals",
            "Any (IsTrueIn context) literals",
            ("IsGroundInstance problem c literals → literals ≡ literals", "Rattle.std.specs.Prelude.{◌≡◌}"),
        ]),
    ]),
]
