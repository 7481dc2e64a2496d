"""The proofs of the functions that read lists, maps and options of types of a group in the second format."""

from second_format import tree_of
from second_format_text import list_datum, option_datum

def option_answers(group, shaped):
    w, fn = shaped.word, f"read_{shaped.inner('option')}"
    trees = f"(tree_and unit_tree (tree_and ({w}_tree c.args.left) no_trees))"
    entered = f"{trees} {{}} c.in_ok-found.ensures.enters (omega (arith, c.in_ok-found.ensures.known))"
    return f"""
pub {fn}-returns-in_err-found-clause-refused : goal.{fn}-returns-in_err-found-clause-refused
{fn}-returns-in_err-found-clause-refused t c =
    refused_on (choice_tree {trees}) c.args.place c.args.reader.now
    c.from_residual.result c.in_err-found.field-0.0 c.from_residual.ensures.1 (c.in_err-found.ensures.refused {trees} \
refl)

pub {fn}-returns-then-found-eq0-clause-read : goal.{fn}-returns-then-found-eq0-clause-read
{fn}-returns-then-found-eq0-clause-read t c =
    unit_variant_kept {entered.format(0)} refl
    c.args.budget.now c.enter_variant.ensures.taken c.take.ensures {option_datum(shaped)} None refl

pub {fn}-returns-in_err-value-clause-refused : goal.{fn}-returns-in_err-value-clause-refused
{fn}-returns-in_err-value-clause-refused t c =
    variant_refused {entered.format(1)}
    c.from_residual-in_err-value.result c.in_err-value.field-0.0 c.from_residual-in_err-value.ensures.1 \
c.in_err-value.ensures.refused

pub {fn}-returns-clause-continues : goal.{fn}-returns-clause-continues
{fn}-returns-clause-continues t c = continues_on _ _ _ c.in_ok-found.ensures.continues c.in_ok-value.ensures.continues

pub {fn}-returns-clause-read : goal.{fn}-returns-clause-read
{fn}-returns-clause-read t c =
    variant_kept {entered.format(1)}
    c.args.budget.now c.enter_variant.ensures.taken c.in_ok-value.ensures.read {option_datum(shaped)} (Some \
c.in_ok-held.held) (rw c.in_ok-held.ensures.ok refl)
"""


# With more fields in a type, `search` gives up at one of its limits where it would find these answers otherwise.
FEW_FIELDS = 5


def has_many_fields(shaped):
    parts = [shaped.parts] if shaped.is_struct else [parts for _, parts in shaped.variants]
    return any(len(each) > FEW_FIELDS for each in parts)


def list_keep_answer(shaped):
    """That a list that does not grow is a refusal for want of memory."""
    fn = f"read_{shaped.inner('list')}"
    tree = f"(seq_tree ({shaped.word}_tree c.args.left))"
    return f"""
pub {fn}-returns-in_err-keep-clause-refused : goal.{fn}-returns-in_err-keep-clause-refused
{fn}-returns-in_err-keep-clause-refused t c =
    refused_on {tree} c.args.place c.args.reader.now
    c.from_residual-in_err-keep.result c.in_err-keep.field-0.0 c.from_residual-in_err-keep.ensures.1
    (no_memory {tree} c.args.place c.args.reader.now _ c.in_err-keep.ensures.refused)
"""


def list_answers(shaped):
    w, one, fn = shaped.word, f"read_{shaped.word}", f"read_{shaped.inner('list')}"
    return f"""
pub {fn}-{one}-requires : goal.{fn}-{one}-requires
{fn}-{one}-requires t c =
    let there = items_there c.loop-i.invariant c.in_ok-found.ensures.inside in
    let steady = c.loop-i.invariant.continues.steady in
    search (rules, there, steady)

pub {fn}-returns-in_err-found-clause-refused : goal.{fn}-returns-in_err-found-clause-refused
{fn}-returns-in_err-found-clause-refused t c =
    let s = {w}_tree c.args.left in
    refused_on (seq_tree s) c.args.place c.args.reader.now c.from_residual.result c.in_err-found.field-0.0 \
c.from_residual.ensures.1
    (c.in_err-found.ensures.refused s ({w}_columns c.args.left))

pub {fn}-returns-in_err-item-clause-refused : goal.{fn}-returns-in_err-item-clause-refused
{fn}-returns-in_err-item-clause-refused t c =
    item_refused c.loop-i.invariant c.in_ok-found.ensures.enters (omega arith)
    c.from_residual-in_err-item.result c.in_err-item.field-0.0 c.from_residual-in_err-item.ensures.1 \
c.in_err-item.ensures.refused

pub {fn}-loop-i-init : goal.{fn}-loop-i-init
{fn}-loop-i-init t c = no_items {w}_datum ({w}_tree c.args.left) _ _ _ _ c.in_ok-found.ensures.continues.steady \
(search rules)

pub {fn}-loop-i-preserved : goal.{fn}-loop-i-preserved
{fn}-loop-i-preserved t c =
    and_item c.loop-i.invariant c.in_ok-item.ensures.continues c.in_ok-item.ensures.read _ c.in_ok-keep.ensures.kept

pub {fn}-returns : goal.{fn}-returns
{fn}-returns t c = record {{
  continues = continues_on _ _ _ c.in_ok-found.ensures.continues c.loop-i.invariant.continues;
  read = items_kept c.loop-i.invariant c.in_ok-found.ensures.enters (omega arith) ({w}_columns c.args.left)
      c.args.budget.now c.enter_list.ensures.taken {list_datum(shaped)} c.loop-i.items refl;
  refused = tt;
}}
"""


def map_answers(part):
    """One key and its value after another."""
    fn, one = part.function(), f"read_{part.of.word}"
    value = f"{part.of.word}_datum"
    trees = f"{tree_of(part.type.parts[0], 'c.args.left')} ({part.of.word}_tree c.args.left)"
    head = (
        f"{part.key()} {value} {trees} found.keys found.values\n"
        "    c.enter_map.new.reader l.reader c.enter_map.new.budget l.budget l._i l.pairs.items l.invariant"
    )
    lead = "    let l = c.loop-i in\n    let found = c.in_ok-found.found in\n"

    def refused(name, residual, rest):
        is_inside = name in ("key", "value")
        lets = f"{lead}    let lt : l._i < found.count = omega arith in\n" if is_inside else ""
        return f"""
pub {fn}-returns-in_err-{name}-clause-refused : goal.{fn}-returns-in_err-{name}-clause-refused
{fn}-returns-in_err-{name}-clause-refused t c =
{lets}    refused_on (map_tree {trees}) c.args.place c.args.reader.now {residual}.result c.in_err-{name}.field-0.0 \
{residual}.ensures.1
    ({rest})
"""

    enters = "c.args.reader.now c.args.place found.count c.in_ok-found.ensures.enters"
    return (
        f"""
pub {fn}-read_at-requires : goal.{fn}-read_at-requires
{fn}-read_at-requires t c =
{lead}    let h = keys_there {head} c.in_ok-found.ensures.inside.0 in
    let s = l.invariant.0.steady in
    search (rules, h, s)

pub {fn}-{one}-requires : goal.{fn}-{one}-requires
{fn}-{one}-requires t c =
{lead}    let there = values_there {head} c.in_ok-found.ensures.inside.1 in
    let h = still_there l.reader c.read_at.new.reader found.values c.in_ok-key.ensures.continues there in
    let s = c.in_ok-key.ensures.continues.steady in
    search (rules, h, s)
"""
        + refused("found", "c.from_residual", f"c.in_err-found.ensures.refused {trees}")
        + refused(
            "key",
            "c.from_residual-in_err-key",
            f"key_not_kept {head}\n    {enters} _ lt c.in_err-key.ensures.refused",
        )
        + refused(
            "value",
            "c.from_residual-in_err-value",
            f"value_not_kept {head}\n    {enters} _ c.read_at.new.reader _ _ c.in_ok-key.key lt "
            "c.in_ok-key.ensures.continues c.in_ok-key.ensures.read\n"
            "    c.in_err-value.ensures.refused",
        )
        + refused(
            "keep",
            "c.from_residual-in_err-keep",
            f"no_memory (map_tree {trees}) c.args.place c.args.reader.now _ c.in_err-keep.ensures.refused",
        )
        + f"""
pub {fn}-loop-i-init : goal.{fn}-loop-i-init
{fn}-loop-i-init t c =
    let found = c.in_ok-found.found in
    let empty : c.new-pairs.result.items ≡ [] = search rules in
    subst (λ ps. PairsKept {part.key()} {value} {trees} found.keys found.values
    c.enter_map.new.reader c.enter_map.new.budget 0 ps c.enter_map.new.reader c.enter_map.new.budget) (sym empty)
    (no_pairs {part.key()} {value} {trees} found.keys found.values
    c.enter_map.new.reader c.enter_map.new.budget c.in_ok-found.ensures.continues.steady)

pub {fn}-loop-i-preserved : goal.{fn}-loop-i-preserved
{fn}-loop-i-preserved t c =
{lead}    pairs_more {head} tt c.read_at.new.reader _ _ _ _ c.keep.new.items.items c.in_ok-key.key c.in_ok-value.value
    c.take.ensures c.in_ok-key.ensures.continues c.in_ok-key.ensures.read c.in_ok-value.ensures.continues \
c.in_ok-value.ensures.read c.in_ok-keep.ensures.kept

pub {fn}-returns-clause-continues : goal.{fn}-returns-clause-continues
{fn}-returns-clause-continues t c =
    continues_on c.args.reader.now c.enter_map.new.reader c.loop-i.reader c.in_ok-found.ensures.continues \
c.loop-i.invariant.0

pub {fn}-returns-clause-read : goal.{fn}-returns-clause-read
{fn}-returns-clause-read t c =
{lead}    let all : l._i ≡ found.count = omega arith in
    map_kept {part.key()} {value} {part.datum()} {trees} c.args.place c.args.reader.now l.reader c.args.budget.now \
l.budget l.pairs.items
    c.in_ok-made.made.entries c.in_ok-made.made refl (c.in_ok-made.ensures.entries {value})
    (pairs_kept {head}
    c.args.reader.now c.args.place found.count c.args.budget.now c.in_ok-found.ensures.enters refl all \
c.enter_map.ensures.taken)
"""
    )
