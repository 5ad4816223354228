"""Long lines of definitions and proofs, broken as a reader would."""
import unittest

from breaking import laid_out, long_lines, words_of

# A long line or more, and what it becomes.
ROWS = {
    "a signature, before the premises": (
        "joined : (c : Codes) (b : Block) (flags : ℕ) (k : Known) (held : List ℕ) (whole : Bool) → is_known k.last (number_of b) ≡ false"
        " → k.bytes ≡ bytes_if whole held → Joined c b flags k\n",
        "joined : (c : Codes) (b : Block) (flags : ℕ) (k : Known) (held : List ℕ) (whole : Bool)\n"
        "    → is_known k.last (number_of b) ≡ false → k.bytes ≡ bytes_if whole held → Joined c b flags k\n",
    ),
    "an equation, after its sign": (
        "acknowledges_own p number cur sp count kp xs ys k due f l m (sending r i q le h) d = absurd (owes_grant kp (may_owes count kp"
        " (Ack f l) m) i)\n",
        "acknowledges_own p number cur sp count kp xs ys k due f l m (sending r i q le h) d =\n"
        "    absurd (owes_grant kp (may_owes count kp (Ack f l) m) i)\n",
    ),
    "a chain that goes on": (
        "is =\n    ap (λ f. number_at w f 4) first ∙ number_at-is w (30 - 4 * i) 4 ∙ sym (mod-mod-pow x (4 * i - 5) 4)"
        " ∙ ap (λ n. x % 2 ^ n % 16) width ∙ ap (λ n. n % 16) upper\n",
        "is =\n    ap (λ f. number_at w f 4) first ∙ number_at-is w (30 - 4 * i) 4 ∙ sym (mod-mod-pow x (4 * i - 5) 4)"
        " ∙ ap (λ n. x % 2 ^ n % 16) width\n    ∙ ap (λ n. n % 16) upper\n",
    ),
    "the last argument": (
        "    by e =\n        subst (λ (x : Option UnitNumber). IsNamed (number_of x) t.number) (sym is.named)"
        " (named_later p (attempt_of c.args.left.now) t may.number is.more)\n",
        "    by e =\n        subst (λ (x : Option UnitNumber). IsNamed (number_of x) t.number) (sym is.named)\n"
        "        (named_later p (attempt_of c.args.left.now) t may.number is.more)\n",
    ),
    "the fields of a record": (
        "way_join p xs ys s t r h k = record { steps = h.steps ++ k.steps; ends = end_append p h.steps k.steps s ∙ k.ends;"
        " records = trace_append h.steps k.steps ∙ ap (λ l. l ++ trace k.steps) h.records }\n",
        "way_join p xs ys s t r h k = record {\n  steps = h.steps ++ k.steps;\n  ends = end_append p h.steps k.steps s ∙ k.ends;\n"
        "  records = trace_append h.steps k.steps ∙ ap (λ l. l ++ trace k.steps) h.records;\n}\n",
    ),
    "the parts of a tuple": (
        "pieces n =\n    (load, refl, before 17 (again_stops, λ m l. none_before (take 17 (load ++ load)) (drop 17 (load ++ load)) m l),"
        " (refl, inl (nowhere load glimpse_at_first)))\n",
        "pieces n = (\n  load,\n  refl,\n  before 17 (again_stops, λ m l. none_before (take 17 (load ++ load))"
        " (drop 17 (load ++ load)) m l),\n  (refl, inl (nowhere load glimpse_at_first)),\n)\n",
    ),
    "the cases of a list": (
        "ended h new = elim (is_or_before h.place new.count l) [ inl less ↦ old_step w best s (are.every h.place w less m next)"
        " | inr same ↦ inl (new_step s b next) ]\n",
        "ended h new = elim (is_or_before h.place new.count l) [\n  | inl less ↦ old_step w best s (are.every h.place w less m next)\n"
        "  | inr same ↦ inl (new_step s b next)\n]\n",
    ),
    "a line that opens a record, which moves along": (
        "at_way p t h e n = subst (λ (o : Option UnitNumber). IsNamed (number_of o) t.number ⊎ IsNamed (number_of o) h.number)"
        " (sym is.named) (inr (record {\n  last = t;\n  rest = e;\n}))\n",
        "at_way p t h e n =\n    subst (λ (o : Option UnitNumber). IsNamed (number_of o) t.number ⊎ IsNamed (number_of o) h.number)"
        " (sym is.named) (inr (record {\n      last = t;\n      rest = e;\n    }))\n",
    ),
    "a comment, with the one below it": (
        "-- the faults of a stream by those of a certificate and of a recording, and by what has stopped a shelf or a listener: out of"
        " memory is one kind of\n-- fault, and comes last\nx = y\n",
        "-- the faults of a stream by those of a certificate and of a recording, and by what has stopped a shelf or a listener: out of"
        " memory is one\n-- kind of fault, and comes last\nx = y\n",
    ),
}
# What stays as it is.
SAME = {
    "140 columns": f"is : {'x' * 135}\n",
    "what is used": f"use Rattle.std.specs.Prelude.{{{', '.join(['◌≡◌'] * 40)}}}\n",
    "a text that is long itself": f'is =\n    codes "{"words " * 30}"\n',
}


class Breaking(unittest.TestCase):
    def test_rows(self):
        for name, (old, wanted) in ROWS.items():
            with self.subTest(name):
                self.assertEqual(laid_out(old), wanted)
                self.assertEqual(laid_out(wanted), wanted)
                self.assertEqual(words_of(wanted), words_of(old))
                self.assertEqual(long_lines(wanted), [])

    def test_what_stays(self):
        for name, text in SAME.items():
            with self.subTest(name):
                self.assertEqual(laid_out(text), text)

    def test_words(self):
        self.assertEqual(words_of("(a,\n  b.c,\n)"), words_of("(a, b.c)"))
        self.assertNotEqual(words_of("(a, b .c)"), words_of("(a, b.c)"))
        self.assertNotEqual(words_of("a\n-- b"), words_of("a"))


if __name__ == "__main__":
    unittest.main()
