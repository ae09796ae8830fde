"""Writes Forced.antt of crates/pp_pieces: functions that compute a state of the law to its last byte before they hand it on.

`judge n s piece` judges a piece of a log from the state `s`, in which `n` happenings came before: it ends in `arrived t`, with `t`
written out, or in `wrong place rule`. A declaration

    row7x0 : (t : State) × (arrived t ≡ judge n s (piece))
    row7x0 = (_, refl)

keeps `t` as a term that is written out: the checker fills in the `_`, and what stands below begins from `row7x0.0` without
computing the piece again.

The types are read from the specs of the crates, and from their Rust where it declares them.
"""

import re

# Records and data of specs, and where they stand.
SPECS = {
    "Settings": "pp_conf.specs.Conf",
    "Request": "pp_head.specs.Request",
    "Response": "pp_head.specs.Response",
    "Pipe": "pp_pass.specs.Pipe",
    "Key": "pp_target.specs.Key",
    "Parsed": "pp_law.specs.Requests",
    "Front": "pp_law.specs.Requests",
}
# Structs and enums of Rust, and the modules that declare them.
DECLARED = {
    "Times": "pp_fresh.aging",
    "Version": "pp_valid.version",
    "BodyRule": "pp_framing.body",
    "FramingFault": "pp_framing.framing",
    "TargetFault": "pp_target.target",
    "Decision": "pp_world.note",
    "DiskOp": "pp_world.op",
    "AddressRange": "pp_world.door",
}
RUST = {"u64": "ℕ", "u32": "ℕ", "u16": "ℕ", "bool": "Bool", "Octets": "Bytes", "Name": "Bytes", "Tag": "Bytes"}

HEAD = """-- What computes a state of the law to its end, so that a log can be judged in pieces. Written by transcripts/make_rows.
use Rattle.std.specs.Prelude.{⊤}
use Rattle.std.proofs.Common.{ℕ, zero, suc, ◌+◌, List, [], ◌∷◌, Bool, true, false, Option, Some, None, Result, Ok, Err}
"""

BASE = """
pub data Out : Type 0 where
  arrived : State → Out
  wrong : ℕ → Rule → Out

unfoldable pub forced_nat : ℕ → (ℕ → Out) → Out
forced_nat zero k = k zero
forced_nat (suc n) k = k (suc n)

unfoldable pub forced_Bool : Bool → (Bool → Out) → Out
forced_Bool true k = k true
forced_Bool false k = k false

unfoldable pub forced_list : {A : Type 0} → (A → (A → Out) → Out) → List A → (List A → Out) → Out
forced_list f [] k = k []
forced_list f (x ∷ xs) k = f x (λ y. forced_list f xs (λ ys. k (y ∷ ys)))

unfoldable pub forced_option : {A : Type 0} → (A → (A → Out) → Out) → Option A → (Option A → Out) → Out
forced_option f None k = k None
forced_option f (Some x) k = f x (λ y. k (Some y))

unfoldable pub forced_result : {A B : Type 0}
    → (A → (A → Out) → Out) → (B → (B → Out) → Out) → Result A B → (Result A B → Out) → Out
forced_result f g (Ok x) k = f x (λ y. k (Ok y))
forced_result f g (Err x) k = g x (λ y. k (Err y))

unfoldable pub forced_field : List ℕ × List ℕ → (List ℕ × List ℕ → Out) → Out
forced_field p k = forced_list forced_nat p.0 (λ a. forced_list forced_nat p.1 (λ b. k (a, b)))
"""

# Of a log the operations on the disk alone are computed.
HAPPENING = """unfoldable pub forced_Happening : Happening → (Happening → Out) → Out
forced_Happening (Woke files) k = forced_list forced_field files (λ files'. k (Woke files'))
forced_Happening (Began op) k = forced_DiskOp op (λ op'. k (Began op'))
forced_Happening (Did op ok) k = forced_DiskOp op (λ op'. forced_Bool ok (λ ok'. k (Did op' ok')))
forced_Happening h k = k h
"""

JUDGE = """-- what a piece of a log leaves, or the first of it that may not be
unfoldable pub judge : ℕ → State → Log → Out
judge n s [] = forced_State s arrived
judge n s (h ∷ log) = elim (is_permitted s h) [ true ↦ judge (n + 1) (after s h) log | false ↦ wrong n (rule_of s h) ]

-- a verdict, computed to its end
pub data Told : Type 0 where
  told : Option Fault → Told
"""


def types_in(text):
    """The records and data of a file of specs: of each its fields, or its constructors with what they take."""
    records, data = {}, {}
    for kind, name, body in re.findall(r"^pub (record|data) (\w+) : Type 0 where\n((?:  .*\n)+)", text, re.M):
        lines = [re.sub(r"\s*--.*", "", line).strip() for line in body.splitlines()]
        lines = [line for line in lines if line]
        if kind == "record":
            records[name] = [tuple(line.removeprefix("pub ").split(" : ", 1)) for line in lines]
        else:
            data[name] = []
            for names, _, type_ in [line.partition(" : ") for line in lines]:
                data[name] += [(it, [arg.strip() for arg in type_.split("→")[:-1]]) for it in names.split()]
    return records, data


def declared_in(text, name):
    """The struct or enum of this name in a file of Rust: its fields, or its variants with what they take."""
    kind, body = re.search(rf"^pub (struct|enum) {name} {{\n(.*?)^}}", text, re.M | re.S).groups()
    lines = [line.strip().removeprefix("pub ").rstrip(",") for line in body.splitlines() if not line.strip().startswith(("//", "#["))]
    if kind == "struct":
        return [(field, RUST[type_]) for field, type_ in [line.split(": ") for line in lines]]
    cases = [re.fullmatch(r"(\w+)(?:\((.*)\))?", line).groups() for line in lines]
    return [(case, [RUST[arg] for arg in args.split(", ")] if args else []) for case, args in cases]


def forcer(type_):
    """The function that computes a value of this type to its end."""
    type_ = type_.strip()
    plain = {"ℕ": "forced_nat", "Bytes": "(forced_list forced_nat)", "List ℕ": "(forced_list forced_nat)", "Field": "forced_field"}
    plain |= {"List (List ℕ × List ℕ)": "(forced_list forced_field)", "Log": "(forced_list forced_Happening)"}
    if type_ in plain:
        return plain[type_]
    head, _, rest = type_.partition(" ")
    if head in ("List", "Option"):
        return f"(forced_{head.lower()} {forcer(rest)})"
    if head == "Result":
        one, two = rest.split()
        return f"(forced_result {forcer(one)} {forcer(two)})"
    return f"forced_{type_}"


def of_record(name, fields):
    body = "".join(f"{forcer(type_)} x.{field} (λ {field}'. " for field, type_ in fields)
    made = "; ".join(f"{field} = {field}'" for field, _ in fields)
    return [f"forced_{name} x k = {body}k (record {{ {made} }}){')' * len(fields)}"]


def of_case(name, case, args):
    xs = [f"x{at}" for at in range(len(args))]
    left = f"({' '.join([case, *xs])})" if args else case
    body = "".join(f"{forcer(arg)} {x} (λ {x}'. " for arg, x in zip(args, xs))
    made = " ".join([case, *[f"{x}'" for x in xs]])
    return f"forced_{name} {left} k = {body}k {f'({made})' if args else made}{')' * len(args)}"


class Forcing:
    """The functions of all types that a state is made of, each behind those that it calls."""

    def __init__(self, records, data):
        self.records, self.data, self.names, self.out = records, data, [], []

    def need(self, type_):
        for word in re.findall(r"\w+", type_):
            if (word in self.records or word in self.data) and f"forced_{word}" not in self.names:
                self.define(word)

    def define(self, name):
        for _, told in self.records.get(name) or self.data[name]:
            for type_ in [told] if isinstance(told, str) else told:
                self.need(type_)
        self.names.append(f"forced_{name}")
        clauses = of_record(name, self.records[name]) if name in self.records else [of_case(name, *case) for case in self.data[name]]
        self.out.append(f"unfoldable pub forced_{name} : {name} → ({name} → Out) → Out\n" + "\n".join(clauses) + "\n")


def uses_of(state_names, data):
    lines = [f"use Rattle.{place}.{{{name}}}" for name, place in SPECS.items() if name not in ("Parsed", "Front")]
    for name, place in DECLARED.items():
        crate, _, module = place.partition(".")
        lines.append(f"use Rattle.{crate}.specs.declared.{module}.{name}.{{{name}}}")
        if name in data:
            cases = ", ".join(case for case, _ in data[name])
            lines.append(f"use Rattle.{crate}.specs.declared.{module}.{name}.TheVariants.{{{cases}}}")
    lines += ["use Rattle.pp_text.specs.Fields.{Field}", "use Rattle.pp_world.specs.Log.{Log}"]
    lines += [f"use Rattle.pp_world.specs.declared.happening.Happening.{it}" for it in ("{Happening}", "TheVariants.{Woke, Began, Did}")]
    lines += [f"use Rattle.pp_law.specs.Requests.{{{', '.join(['Parsed', 'Front', *[case for case, _ in data['Front']]])}}}"]
    lines += [f"use Rattle.pp_law.specs.State.{{{', '.join(state_names)}}}", "use Rattle.pp_law.specs.Lists.{Bytes}"]
    lines += ["use Rattle.pp_law.specs.After.{after}", "use Rattle.pp_law.specs.Permits.{is_permitted}"]
    lines += [f"use Rattle.pp_law.specs.Lawful.{{Rule, Fault, rule_of, {', '.join(case for case, _ in data['Rule'])}}}"]
    return HEAD + "\n".join([*lines, "use Rattle.pp_law.proofs.OnLiterals.{pp_law_on_literals}"]) + "\n"


def module(crates):
    """Forced.antt, from the specs in this folder of crates."""

    def types_of(place):
        return types_in((crates / (place.replace(".", "/") + ".antt")).read_text())

    records, data = {}, {}
    for name, place in DECLARED.items():
        crate, _, file = place.partition(".")
        found = declared_in((crates / crate / "src" / f"{file}.rt").read_text(), name)
        (data if isinstance(found[0][1], list) else records)[name] = found
    for name, place in SPECS.items():
        found = types_of(place)
        for all_types, these in zip((records, data), found):
            all_types |= {name: these[name]} if name in these else {}
    state_records, state_data = types_of("pp_law.specs.State")
    rules = types_of("pp_law.specs.Lawful")[1]["Rule"]
    state_names = [*state_records, *state_data, *[case for cases in state_data.values() for case, _ in cases]]
    forcing = Forcing(records | state_records, data | state_data)
    forcing.define("DiskOp")
    forcing.out.append(HAPPENING)
    forcing.define("State")
    names = [*forcing.names, *[f"forced_{it}" for it in "nat Bool list option result field Happening".split()]]
    tell = "unfoldable pub tell_rule : Rule → ℕ → Told\n"
    tell += "".join(f"tell_rule {rule} n = told (Some (record {{ at = n; rule = {rule} }}))\n" for rule, _ in rules)
    tell += "\nunfoldable pub tell : Option Fault → Told\ntell None = told None\ntell (Some f) = tell_rule f.rule f.at\n"
    marks = "-- what a row unfolds\nunfoldable pub judging : ⊤\nunfolding pp_law_on_literals judge tell tell_rule\n    "
    marks += "\n    ".join(" ".join(names[at : at + 6]) for at in range(0, len(names), 6)) + "\njudging = tt\n"
    head = uses_of(state_names, data | {"Rule": rules})
    return "\n".join([head + BASE, *forcing.out, JUDGE, tell, marks])
