"""Walks over the phases of gen1_machine (docs/PROOFS.md, "Walks"): Free.antt, SoundWalk.antt, Steady.antt and TreeWalk.antt.

For each phase of the specifications that a walk names there is one lemma: the phase keeps a fact, or has a tree, if its parts do. It
is proved by `search` over the rules for the combinators, the rules for the changes, and the lemmas of the phases that its
clauses name. The lemmas of sound_lemmas.txt and steady_lemmas.txt in the crate's folder are taken as they are.

Run `rt tidy` in crates/gen1_machine after they are written, which drops imports and lays out lines; `is_same` ignores both.
"""

import os
import re
from pathlib import Path

CRATE = os.path.join(os.path.dirname(os.path.abspath(__file__)), "..", "crates", "gen1_machine")
WORD = r"[A-Za-z_][\w]*"


def lines_of(name):
    with open(os.path.join(CRATE, "specs", name + ".antt"), encoding="utf-8") as file:
        return [line for line in file.read().split("\n") if not line.strip().startswith("--")]


def imports_of(name):
    """Each imported word of a specification with its module; and the aliases of modules."""
    words, aliases = {}, {}
    for line in lines_of(name):
        found = re.match(r"use ([\w.+]+)\.\{(.*)\}$", line)
        if found:
            for word in found.group(2).split(","):
                words[word.strip()] = found.group(1)
        found = re.match(r"use ([\w.+]+) as (\w+)$", line)
        if found:
            aliases[found.group(2)] = found.group(1)
    return words, aliases


def phases_of(name):
    """The phases of a specification: word, argument types, and clauses as (patterns, body)."""
    text = "\n".join(line for line in lines_of(name) if not line.startswith("use ")) + "\n"
    result = []
    for found in re.finditer(
        r"^unfoldable pub (%s) : (.*)\n((?:(?!unfoldable|abbrev|pub|infix).*\n)*)" % WORD, text, re.M
    ):
        word, kind, body = found.groups()
        arguments = split_arrows(kind)
        if arguments.pop() != "Phase":
            continue
        heads = list(re.finditer(r"^%s\b((?: [^=\n]*?)?) =(?= |$)" % word, body, re.M))
        clauses = []
        for at, head in enumerate(heads):
            end = heads[at + 1].start() if at + 1 < len(heads) else len(body)
            clauses.append((split_words(head.group(1)), body[head.end() : end]))
        result.append((word, arguments, clauses))
    return result


def split_arrows(kind):
    parts, depth, part = [], 0, ""
    for letter in kind:
        depth += (letter in "({") - (letter in ")}")
        if letter == "→" and depth == 0:
            parts.append(part.strip())
            part = ""
        else:
            part += letter
    return parts + [part.strip()]


def split_words(text):
    words, depth, word = [], 0, ""
    for letter in text + " ":
        depth += (letter == "(") - (letter == ")")
        if letter == " " and depth == 0:
            if word:
                words.append(word)
            word = ""
        else:
            word += letter
    return words


def names_for(arguments, clauses):
    names = []
    for place, kind in enumerate(arguments):
        known = [
            patterns[place]
            for patterns, _ in clauses
            if place < len(patterns) and re.fullmatch(r"[a-z]\w*", patterns[place])
        ]
        known = [word for word in known if word not in ("zero", "true", "false")]
        default = {"Side": "s", "Move": "move", "Effect": "effect", "Pick": "pick", "ℕ": "n", "Ruling": "r"}
        name = known[0] if known else default.get(kind, "x")
        while name in names:
            name += "2"
        names.append(name)
    return names


def premises_for(word, arguments, names, fact, extra):
    premises = [("fits", premise) for premise in extra.get(word, [])]
    for name, kind in zip(names, arguments):
        if kind == "Phase":
            premises.append((name + "-%s" % fact, "Keeps P %s" % name))
        of = re.fullmatch(r"\((\S+) → Phase\)", kind)
        if of:
            premises.append((name + "-%s" % fact, "((x : %s) → Keeps P (%s x))" % (of.group(1), name)))
        if kind == "Ruling":
            premises.append(("ruling", "KeepsRuling P %s" % name))
        if kind == "Move" and "Move" in extra:
            premises.append(("is", "IsMove %s" % name))
    return premises


def lemma(word, arguments, clauses, fact, known, rules, depth, extra, asked=()):
    names = names_for(arguments, clauses)
    premises = premises_for(word, arguments, names, fact, extra) + list(asked)
    binders = [
        "(%s : %s)" % (name, kind.strip("()") if "→" not in kind else kind[1:-1])
        for name, kind in zip(names, arguments)
    ]
    whole = word if not names else "(%s %s)" % (word, " ".join(names))
    kind = (
        "".join(" ".join(binders) + " → " if binders else "")
        + "".join(p + " → " for _, p in premises)
        + "Keeps P "
        + whole
    )
    result = ["  pub %s-%s : %s" % (word, fact, kind), "  unfolding %s" % word]
    for patterns, body in clauses:
        used = [w for w in dict.fromkeys(re.findall(r"(?<![\w.])" + WORD, body)) if w in known and w != word]
        listed = rules + ["%s-%s" % (w, fact) for w in used]
        for premise, fact_of in premises:
            if premise == "ruling":
                listed += [premise + field for field in (".sleeps", ".freezes") if field in body]
            elif "→" in fact_of:
                listed.append(premise)
        left = list(patterns) + names[len(patterns) :] + [p for p, _ in premises]
        result.append(
            "  %s = search (%s) depth %d" % (" ".join(["%s-%s" % (word, fact)] + left), ", ".join(listed), depth)
        )
    return result


def walk(files, fact, rules, left_out, by_hand, extra={}, depth=14):
    known, result, needed, places = set(), [], set(), {}
    aliases = {}
    for name in files:
        words, named = imports_of(name)
        aliases.update(named)
        for word, arguments, clauses in phases_of(name):
            if word in left_out:
                continue
            known.add(word)
            places[word] = "Rattle.gen1_machine.specs." + name
            if word in by_hand:
                lines = by_hand[word]
            else:
                lines = lemma(word, arguments, clauses, fact, known, rules, depth, extra)
            result += lines
            for token in re.findall(r"%s|\[\]|∷" % WORD, "\n".join(lines)):
                if token in words:
                    places.setdefault(token, words[token])
                needed.add(token)
    return result, needed, places, aliases


FILES = """Progress CriticalHits Damage HitTest Landing HitOnItself Gate ResidualDamage StageShift Ruling EarlyEffects LateEffects
SideEffects GoingOn Charging FixedDamage Counter HitEffects ManyHits Action""".split()

COMBINATORS = """stay unless_stopped choose given stop draw draw_until on_field note told on_active on_conditions on_member
set_last_damage starts lasts ends on_action set_missed""".split()

FREE_HEAD = """-- What no phase of an action touches: turn number, places, members that aren't out, and the length of a party. A fact about
-- these alone is free, and every phase of an action keeps it. tools/gen writes this file.
%s
use Rattle.gen1_machine.proofs.Keeps.{choose-keeps, keeps_rules, stay-keeps, then-keeps, Keeps, KeepsRuling, Spares, SparesAction}

-- A change of the member that is out. The same member stays out.
pub record LeavesPlace (change : Active → Active) : Type 0 where
  pub left : (a : Active) → (change a).place ≡ a.place

types-leave : (foe : Active) → LeavesPlace (with_types_of foe)
unfolding with_types_of
types-leave foe = record { left = λ a. refl }

current-leaves : (used : UsedMove) → LeavesPlace (with_current_move used)
unfolding with_current_move
current-leaves used = record { left = λ a. refl }

pub picked-leaves : (used : UsedMove) → LeavesPlace (with_picked_move used)
unfolding with_picked_move
picked-leaves used = record { left = λ a. refl }

accuracy-leaves : (byte : ℕ) → LeavesPlace (with_kept_accuracy byte)
unfolding with_kept_accuracy
accuracy-leaves byte = record { left = λ a. refl }

stage-leaves : (stat : Stat) (n : ℕ) → LeavesPlace (at_new_stage stat n)
unfolding at_new_stage
stage-leaves stat n = record { left = λ a. refl }

recomputed-leaves : (stat : Stat) (n : ℕ) → LeavesPlace (recomputed_at stat n)
unfolding recomputed_at
recomputed-leaves Attack n = record { left = λ a. refl }
recomputed-leaves Defense n = record { left = λ a. refl }
recomputed-leaves Speed n = record { left = λ a. refl }
recomputed-leaves Special n = record { left = λ a. refl }
recomputed-leaves Accuracy n = record { left = λ a. refl }
recomputed-leaves Evasion n = record { left = λ a. refl }

pub penalty-leaves : (status : Status) → LeavesPlace (with_penalty_of status)
unfolding with_penalty_of
penalty-leaves Healthy = record { left = λ a. refl }
penalty-leaves (Asleep turns marked) = record { left = λ a. refl }
penalty-leaves Poisoned = record { left = λ a. refl }
penalty-leaves Burned = record { left = λ a. refl }
penalty-leaves Frozen = record { left = λ a. refl }
penalty-leaves Paralysed = record { left = λ a. refl }

levelled-leaves : LeavesPlace with_levelled_stats
unfolding with_levelled_stats
levelled-leaves = record { left = λ a. refl }

ruleset place_rules = (types-leave, current-leaves, picked-leaves, accuracy-leaves, stage-leaves, recomputed-leaves, penalty-leaves, levelled-leaves)

pub record Free (P : Field → Action → Stream → Type 0) : Type 0 where
  pub member : (s : Side) (change : Member → Member) → Spares P (changed_member s change)
  pub active : (s : Side) (change : Active → Active) → LeavesPlace change → Spares P (changed_active s change)
  pub damage : (n : ℕ) → Spares P (with_last_damage n)
  pub outcome : (n : ℕ) → Spares P (with_outcome (outcomes.Fault n))
  pub action : (change : Action → Action) → SparesAction P change

module _ {P : Field → Action → Stream → Type 0} (free : Free P) where
  pub conditions-spared : (s : Side) (change : ActiveConditions → ActiveConditions) → Spares P (changed_conditions s change)
  unfolding changed_conditions
  conditions-spared s change = free.active s _ (record { left = λ a. refl })

  member-spared : (s : Side) (change : Member → Member) → Spares P (changed_member s change)
  member-spared = free.member

  active-spared : (s : Side) (change : Active → Active) → LeavesPlace change → Spares P (changed_active s change)
  active-spared = free.active

  damage-spared : (n : ℕ) → Spares P (with_last_damage n)
  damage-spared = free.damage

  outcome-spared : (n : ℕ) → Spares P (with_outcome (outcomes.Fault n))
  outcome-spared = free.outcome

  action-spared : (change : Action → Action) → SparesAction P change
  action-spared = free.action

  ruleset free_rules = (keeps_rules, action-spared, place_rules, conditions-spared, member-spared, active-spared, damage-spared, outcome-spared)

"""

FREE_WORDS = """changed_member changed_active changed_conditions with_last_damage with_outcome with_types_of with_current_move with_picked_move
with_kept_accuracy at_new_stage recomputed_at with_penalty_of with_levelled_stats""".split()

FREE_BY_HAND = {
    "hit_again": [
        "  pub hit_again-free : (n : ℕ) (s : Side) (move : Move) → Keeps P (hit_again n s move)",
        "  unfolding hit_again",
        "  hit_again-free zero s move = stay-keeps",
        "  hit_again-free (suc k) s move = choose-keeps _ stay-keeps (then-keeps (hit_once-free s move) (hit_again-free k s move))",
    ],
    "set_skips": [
        "  pub set_skips-free : (skips : Bool) → Keeps P (set_skips skips)",
        "  unfolding set_skips",
        "  set_skips-free skips = record { kept = λ p h. h }",
    ],
    "resume": [
        "  pub resume-free : Keeps P resume",
        "  unfolding resume",
        "  resume-free = record { kept = λ p h. h }",
    ],
    "act": [
        "  pub act-free : (r : Ruling) (s : Side) (pick : Pick) → KeepsRuling P r → Keeps P (act r s pick)",
        "  unfolding act",
        "  act-free r s pick ruling = record {",
        "      kept = λ p h. resume-free.kept _ ((keep_accuracy-free s).kept _ ((action_parts-free r s pick ruling).kept _ ((begin-free s).kept p h)));",
        "    }",
    ],
}

FREE_TAIL = """  pub ruling-free : (terms : Terms) → KeepsRuling P (ruling_of terms)
  ruling-free terms = record { sleeps = sleeps_under-free terms.rules.sleep_clause; freezes = freezes_under-free terms.rules.freeze_clause }
"""


def written_imports(text, places, aliases, extra):
    """The `use` lines for the words of a text."""
    places = dict(places, **extra)
    by_module = {}
    code = "\n".join(line.split("--")[0] for line in text.split("\n"))
    tokens = set(re.findall(r"%s|\[\]|∷|≡|≤|<|\+|ℕ|ltb-true" % WORD, code))
    marks = {"∷": "◌∷◌", "≡": "◌≡◌", "≤": "◌≤◌", "<": "◌<◌", "+": "◌+◌"}
    for token in tokens:
        token = marks.get(token, token)
        if token in places and places[token]:
            by_module.setdefault(places[token], set()).add(token)
    lines = []
    for module in sorted(by_module):
        lines.append("use %s.{%s}" % (module, ", ".join(sorted(by_module[module], key=lambda w: (w[0].isupper(), w)))))
    for alias, module in sorted(aliases.items()):
        if re.search(r"\b%s\." % alias, code):
            lines.append("use %s as %s" % (module, alias))
    return lines


def vocabulary(places, aliases, files=FILES):
    """The module of each word of a walk."""
    words = {}
    names = files + ["Conditions", "State", "CurrentStats", "Picks", "Moves", "Valid", "SwitchingIn", "Turn"]
    for name in names:
        found, named = imports_of(name)
        aliases.update(named)
        for word, module in found.items():
            words.setdefault(word, module)
    for name in names:
        for line in lines_of(name):
            found = re.match(r"(?:unfoldable pub|abbrev pub|pub record|pub data) (%s)" % WORD, line)
            if found:
                words[found.group(1)] = "Rattle.gen1_machine.specs." + name
    for word, module in places.items():
        words.setdefault(word, module)
    common = "Rattle.std.proofs.Common"
    words.update(
        {
            "◌≡◌": common,
            "refl": common,
            "◌∷◌": common,
            "◌≤◌": common,
            "◌<◌": common,
            "◌+◌": common,
            "arith": common,
            "absurd": None,
            "sym": common,
            "ltb-true": common,
            "subst": common,
        }
    )
    for word in ("stat", "active", "conditions", "member", "free"):
        words.pop(word, None)
    return words


def written(name, body, uses):
    """The file of a walk, and its text with its imports."""
    return os.path.join(CRATE, "proofs", name + ".antt"), body.replace("%s", "\n".join(uses), 1)


def free():
    lines, _, places, aliases = walk(FILES, "free", ["free_rules"], COMBINATORS, FREE_BY_HAND)
    words = vocabulary(places, aliases)
    for word in ("Free", "LeavesPlace"):
        words.pop(word, None)
    body = FREE_HEAD + "\n".join(lines) + "\n" + FREE_TAIL
    return written("Free", body, written_imports(body, words, aliases, {}))


SOUND_LEFT_OUT = (
    COMBINATORS
    + """start_bide bide_for late_effect trap_for trap thrash_less thrash_for thrash_about prelude
must_recharge side_effect start_rage hit_effect hit_once hit_again other_hits hits strike begin_charge charge make_current use_move
lead_up carry_out action_parts act let_energy_go store_energy bide_on bide_goes_on set_letting_go spend_pp keep_accuracy begin
resume""".split()
)

SOUND_HEAD = """-- The phases of an action that touch nothing that the current move explains keep a valid field. tools/gen writes this
-- file, with the lemmas of sound_lemmas.txt.
%s
use Rattle.std.proofs.lemmas.Bool.{false≢true, ltb-true}
use Rattle.gen1_machine.proofs.Keeps.{choose-keeps, draw-keeps, ends-keeps, given-keeps, keeps_rules, note-keeps, on_action-keeps, on_active-keeps, on_conditions-keeps, on_field-keeps, set_last_damage-keeps, set_missed-keeps, starts-keeps, stay-keeps, stop-keeps, then-keeps, told-keeps, Keeps, KeepsRuling, Spares, SparesAction, keeps-leads, stay-leads, then-leads, Leads}
use Rattle.gen1_machine.proofs.Tame.{broken_off-tame, penalty-tame, recomputed-tame, stage-tame, status-tame, tame_rules, with_confusion-tame, with_substitute-tame, without_confusion-tame, without_disable-tame, without_flinch-tame, without_invulnerability-tame, TameActive, TameConditions, TameMember}
use Rattle.gen1_machine.proofs.Sound.{choose-leads_sees, choose-sees, draw-sees, draw_until-sees, given-sees, party-valid, told-leads, Sound, base-small, before_types-small, confusion-less, disable-less, disabled-valid, draw-leads, draw_until-leads, fails_if-plain, leads-from, named, on_conditions-leads, out-valid, risen-small, stage-small, typed-small, varied-small, IsMove}

one-least : 1 ≤ 1
one-least = omega arith

module _ {terms : Terms} {P : Field → Action → Stream → Type 0} (sound : Sound terms P) where
  pub conditions-spared : (s : Side) (change : ActiveConditions → ActiveConditions) → TameConditions change → Spares P (changed_conditions s change)
  conditions-spared s change tame = record { spared = λ f a w h. sound.conditions s change f a w h (λ e k. tame.valid e _ _ k) }

  member-spared : (s : Side) (change : Member → Member) → TameMember terms.rules change → Spares P (changed_member s change)
  member-spared = sound.member

  active-spared : (s : Side) (change : Active → Active) → TameActive change → Spares P (changed_active s change)
  active-spared = sound.active

  zero-spared : Spares P (with_last_damage 0)
  zero-spared = sound.damage 0 (omega arith)

  pub missed-spared : (missed : Bool) → SparesAction P (λ a. record a { missed = missed })
  missed-spared missed = sound.action _ (record { tested = λ a h. h; letting_go = λ a. refl })

  ruleset sound_rules = (keeps_rules, tame_rules, member-spared, active-spared, conditions-spared, zero-spared, missed-spared, one-least)

"""

SOUND_TAIL = """  pub ruling-sound : KeepsRuling P (ruling_of terms)
  ruling-sound = record { sleeps = λ user. sleeps_under-sound terms.rules.sleep_clause user (λ e. e); freezes = λ user. freezes_under-sound terms.rules.freeze_clause user }
"""


def sound():
    by_hand = {}
    with open(os.path.join(CRATE, "sound_lemmas.txt"), encoding="utf-8") as file:
        for block in file.read().strip("\n").split("\n\n"):
            by_hand[re.match(r"  pub (%s)-sound :" % WORD, block).group(1)] = block.split("\n")
    extra = {"Move": True, "inflict": ["IsStatus terms.rules status"], "lower_foes_stat": ["1 ≤ by"]}
    lines, _, places, aliases = walk(FILES, "sound", ["sound_rules"], SOUND_LEFT_OUT, by_hand, extra)
    words = vocabulary(places, aliases)
    body = SOUND_HEAD + "\n".join(lines) + "\n" + SOUND_TAIL
    return written("SoundWalk", body, written_imports(body, words, aliases, {}))


# What a phase needs of a fact besides, by what it may do: it hurts, it faults, it breaks off a move that continues, it changes
# rage or thrashing of the side that acts, or it changes what is known of the action.
ASKED = {"hurts": "Hurts P", "faults": "Faults P", "broken": "Breaks P %s", "own": "Own P %s", "acts": "Acts P"}

STEADY_HEAD = """-- What phases leave as it is: rage, thrashing and their kept accuracy, the health of a member that falls, and the outcome.
-- A further need of a phase is a premise of its lemma. tools/gen writes this file, with the lemmas of
-- steady_lemmas.txt.
%s
use Rattle.gen1_machine.proofs.Keeps.{choose-keeps, given-keeps, keeps_rules, on_action-keeps, on_active-keeps, on_conditions-keeps, on_field-keeps, on_member-keeps, stay-keeps, stop-keeps, then-keeps, told-keeps, Keeps, KeepsRuling, Spares, SparesAction}

-- Changes that leave rage, thrashing and their kept accuracy as they are

pub record LeavesKept (change : Active → Active) : Type 0 where
  pub kept : (a : Active) → (change a).kept_accuracy ≡ a.kept_accuracy
  pub conditions : (a : Active) → (change a).conditions ≡ a.conditions
  pub place : (a : Active) → (change a).place ≡ a.place

pub record Leaves (change : ActiveConditions → ActiveConditions) : Type 0 where
  pub left : (c : ActiveConditions) → keeps_accuracy (change c).underway ≡ keeps_accuracy c.underway

-- A change after which a fallen member has no status.
pub record Softens (change : Member → Member) : Type 0 where
  pub healthy : (m : Member) → (m.hp ≡ 0 → m.status ≡ Healthy) → (change m).hp ≡ 0 → (change m).status ≡ Healthy

pub record LeavesAction (change : Action → Action) : Type 0 where
  pub tested : (a : Action) → (change a).accuracy_tested ≡ a.accuracy_tested
  pub going_on : (a : Action) → (change a).going_on ≡ a.going_on
  pub letting_go : (a : Action) → (change a).letting_go ≡ a.letting_go

%LEAVES

softens-status : Softens (with_status Healthy)
unfolding with_status
softens-status = record { healthy = λ m h e. refl }

pub softens-fallen : Softens fallen
unfolding fallen
softens-fallen = record { healthy = λ m h e. refl }

softens-sleep : Softens with_sleep_one_less
unfolding with_sleep_one_less
softens-sleep = record { healthy = λ m h e. rw (h e) refl }

softens-pp : (used : UsedMove) → Softens (with_pp_spent used)
unfolding with_pp_spent
softens-pp used = record { healthy = λ m h. h }

ruleset leaves_rules = (%RULES, softens-status, softens-fallen, softens-sleep, softens-pp)

-- Facts that all these changes keep

pub record Steady (P : Field → Action → Stream → Type 0) : Type 0 where
  pub member : (s : Side) (change : Member → Member) → Softens change → Spares P (changed_member s change)
  pub active : (s : Side) (change : Active → Active) → LeavesKept change → Spares P (changed_active s change)
  pub conditions : (s : Side) (change : ActiveConditions → ActiveConditions) → Leaves change → Spares P (changed_conditions s change)
  pub damage : (n : ℕ) → Spares P (with_last_damage n)
  pub action : (change : Action → Action) → LeavesAction change → SparesAction P change

-- What else may keep a fact

pub record Hurts (P : Field → Action → Stream → Type 0) : Type 0 where
  pub hurt : (s : Side) (change : Member → Member) → Spares P (changed_member s change)

pub record Faults (P : Field → Action → Stream → Type 0) : Type 0 where
  pub faulted : (n : ℕ) → Spares P (with_outcome (outcomes.Fault n))

pub record Breaks (P : Field → Action → Stream → Type 0) (s : Side) : Type 0 where
  pub broken : Spares P (changed_conditions s broken_off)

pub record Own (P : Field → Action → Stream → Type 0) (s : Side) : Type 0 where
  pub conditions : (change : ActiveConditions → ActiveConditions) → Spares P (changed_conditions s change)
  pub kept : (byte : ℕ) → Spares P (changed_active s (with_kept_accuracy byte))

pub record Acts (P : Field → Action → Stream → Type 0) : Type 0 where
  pub action : (change : Action → Action) → SparesAction P change

module _ {P : Field → Action → Stream → Type 0} (steady : Steady P) where
  pub member-spared : (s : Side) (change : Member → Member) → Softens change → Spares P (changed_member s change)
  member-spared = steady.member

  pub active-spared : (s : Side) (change : Active → Active) → LeavesKept change → Spares P (changed_active s change)
  active-spared = steady.active

  pub conditions-spared : (s : Side) (change : ActiveConditions → ActiveConditions) → Leaves change → Spares P (changed_conditions s change)
  conditions-spared = steady.conditions

  pub damage-spared : (n : ℕ) → Spares P (with_last_damage n)
  damage-spared = steady.damage

  pub missed-spared : (missed : Bool) → SparesAction P (λ a. record a { missed = missed })
  missed-spared missed = steady.action _ (record { tested = λ a. refl; going_on = λ a. refl; letting_go = λ a. refl })

  ruleset steady_rules = (keeps_rules, leaves_rules, member-spared, active-spared, conditions-spared, damage-spared, missed-spared)

"""

STEADY_TAIL = """  pub ruling-steady : (terms : Terms) → Hurts P → KeepsRuling P (ruling_of terms)
  ruling-steady terms hurts = record { sleeps = λ user. sleeps_under-steady terms.rules.sleep_clause user hurts; freezes = λ user. freezes_under-steady terms.rules.freeze_clause user hurts }
"""

# Changes of a member that is out, with their arguments, and changes of conditions.
LEFT_ACTIVES = [
    "with_types_of (foe : Active)",
    "with_current_move (used : UsedMove)",
    "with_picked_move (used : UsedMove)",
    "at_new_stage (stat : Stat) (n : ℕ)",
    "with_levelled_stats",
]
LEFT_CONDITIONS = [
    "with_bide (turns : ℕ)",
    "with_bide_storing (damage : ℕ)",
    "without_bide",
    "with_trapping (turns : ℕ)",
    "with_trapping_one_less",
    "without_trapping",
    "with_charging",
    "without_charging",
    "with_invulnerability",
    "without_invulnerability",
    "with_recharge",
    "without_recharge",
    "with_flinch",
    "without_flinch",
    "with_confusion (turns : ℕ)",
    "with_confusion_one_less",
    "without_confusion",
    "with_mist",
    "with_focus_energy",
    "with_light_screen",
    "with_reflect",
    "with_substitute (hp : ℕ)",
    "with_substitute_hurt (damage : ℕ)",
    "without_substitute",
    "with_seed",
    "without_seed",
    "with_bad_poison",
    "with_worse_poison",
    "with_disabled (slot turns : ℕ)",
    "with_disable_one_less",
    "without_disable",
    "after_haze",
]


def leaving(change, record, proof):
    word, binders = (change.split(" ", 1) + [""])[:2]
    names = " ".join(name for group in re.findall(r"\(([^:]*) :", binders) for name in group.split())
    whole = "(%s %s)" % (word, names) if names else word
    kind = (binders + " → " if binders else "") + "%s %s" % (record, whole)
    return [
        "pub %s-leaves : %s" % (word, kind),
        "unfolding %s" % word,
        "%s-leaves%s = record { %s }" % (word, " " + names if names else "", proof),
        "",
    ]


def stored_lemmas():
    """The lemmas of steady_lemmas.txt by phase, and what each needs of a fact."""
    lemmas, asked = {}, {}
    with open(os.path.join(CRATE, "steady_lemmas.txt"), encoding="utf-8") as file:
        for block in file.read().strip("\n").split("\n\n"):
            word = re.match(r"  pub (%s)-steady :" % WORD, block).group(1)
            lemmas[word] = block.split("\n")
            asked[word] = {name for name, kind in ASKED.items() if kind.split(" %")[0] in block.split("\n")[0]}
    return lemmas, asked


def steady():
    stored, asked = stored_lemmas()
    known, result, places, aliases, order = set(), [], {}, {}, list(ASKED)
    for name in FILES:
        words, named = imports_of(name)
        aliases.update(named)
        places.update({word: module for word, module in words.items() if word not in places})
        for word, arguments, clauses in phases_of(name):
            if word in COMBINATORS:
                continue
            known.add(word)
            places[word] = "Rattle.gen1_machine.specs." + name
            if word in stored:
                result += stored[word]
                continue
            used = {w for _, body in clauses for w in re.findall(WORD, body) if w in known and w != word}
            asked[word] = set().union(*[asked[w] for w in used]) if used else set()
            names = names_for(arguments, clauses)
            sides = [n for n, kind in zip(names, arguments) if kind == "Side"]
            premises = [(n, ASKED[n] % sides[0] if "%" in ASKED[n] else ASKED[n]) for n in order if n in asked[word]]
            result += lemma(word, arguments, clauses, "steady", known, ["steady_rules"], 14, {}, premises)
    leaves = []
    for change in LEFT_ACTIVES:
        leaves += leaving(change, "LeavesKept", "kept = λ a. refl; conditions = λ a. refl; place = λ a. refl")
    for word, binder, cases in (
        ("recomputed_at", "(n : ℕ) ", "Attack Defense Speed Special Accuracy Evasion"),
        ("with_penalty_of", "", "Healthy (Asleep_turns_marked) Poisoned Burned Frozen Paralysed"),
    ):
        leaves += [
            "pub %s-leaves : (x : %s) %s→ LeavesKept (%s x%s)"
            % (word, "Stat" if binder else "Status", binder, word, " n" if binder else ""),
            "unfolding %s" % word,
        ]
        leaves += [
            "%s-leaves %s%s = record { kept = λ a. refl; conditions = λ a. refl; place = λ a. refl }"
            % (word, case.replace("_", " "), " n" if binder else "")
            for case in cases.split()
        ] + [""]
    for change in LEFT_CONDITIONS:
        leaves += leaving(change, "Leaves", "left = λ c. refl")
    rules = ", ".join(line.split(" ")[1] for line in leaves if line.startswith("pub "))
    words = vocabulary(places, aliases)
    aliases["outcomes"] = "Rattle.gen1_machine.specs.declared.terms.Outcome.TheVariants"
    for word in ("Acts", "Leaves", "hurt", "own", "acts"):
        words.pop(word, None)
    body = (
        STEADY_HEAD.replace("%LEAVES", "\n".join(leaves).rstrip("\n")).replace("%RULES", rules)
        + "\n".join(result)
        + "\n"
        + STEADY_TAIL
    )
    return written("Steady", body, written_imports(body, words, aliases, {}))


TREE_HEAD = """-- Each phase has a tree of draws. tools/gen writes this file.
%s
use Rattle.gen1_machine.proofs.Trees.{after-tree, choose-tree, drawless-tree, given-tree, tree_rules, stay-tree, then-tree, Blind, HasTree, RulingHasTrees}

"""

# The ways to combine phases that Trees.antt has rules for.
TREE_RULES = "stay unless_stopped choose given stop draw draw_until on_field note told on_action".split()

TREE_BY_HAND = {
    "fails_if": [
        "pub fails_if-tree : (s : Side) {test : Progress → Bool} → Blind test → HasTree (fails_if s test)",
        "unfolding fails_if",
        "fails_if-tree s blind = choose-tree blind (fail-tree s) stay-tree",
    ],
    "hit_again": [
        "pub hit_again-tree : (n : ℕ) (s : Side) (move : Move) → HasTree (hit_again n s move)",
        "unfolding hit_again",
        "hit_again-tree zero s move = stay-tree",
        "hit_again-tree (suc k) s move = choose-tree (λ p s n. refl) stay-tree (then-tree (hit_once-tree s move) (hit_again-tree k s move))",
    ],
    "set_skips": [
        "pub set_skips-tree : (skips : Bool) → HasTree (set_skips skips)",
        "unfolding set_skips",
        "set_skips-tree skips = drawless-tree (λ p s n. refl)",
    ],
    "resume": [
        "pub resume-tree : HasTree resume",
        "unfolding resume",
        "resume-tree = drawless-tree (λ p s n. refl)",
    ],
    "act": [
        "pub act-tree : (r : Ruling) (s : Side) (pick : Pick) → RulingHasTrees r → HasTree (act r s pick)",
        "unfolding act",
        "act-tree r s pick ruling =",
        "    after-tree (after-tree (after-tree (begin-tree s) (action_parts-tree r s pick ruling)) (keep_accuracy-tree s)) resume-tree",
    ],
    "do_parts": [
        "pub do_parts-tree : (r : Ruling) (parts : List Part) → RulingHasTrees r → HasTree (do_parts r parts)",
        "unfolding do_parts",
        "do_parts-tree r [] ruling = end_turn-tree",
        "do_parts-tree r (part ∷ rest) ruling =",
        "    then-tree (do_part-tree r part ruling) (choose-tree (λ p s n. refl) stay-tree (do_parts-tree r rest ruling))",
    ],
    "close_update": [
        "restarted-tree : HasTree (λ p. record p { stopped = false })",
        "restarted-tree = drawless-tree (λ p s n. refl)",
        "",
        "pub close_update-tree : (r : Ruling) → RulingHasTrees r → HasTree (close_update r)",
        "unfolding close_update given",
        "close_update-tree r ruling =",
        "    after-tree restarted-tree (given-tree {read = λ p. p.field.outcome} (λ p s n. refl) (λ outcome. close-tree r outcome ruling))",
    ],
    "update": [
        "pub update-tree : (r : Ruling) (one two : Choice) → RulingHasTrees r → HasTree (update r one two)",
        "unfolding update given",
        "update-tree r one two ruling = after-tree (given-tree {A = Request × Request}",
        "    {read = λ p. (p.field.request_one, p.field.request_two)} (λ p s n. refl)",
        "    (λ due. update_for-tree r due.0 due.1 one two ruling)) (close_update-tree r ruling)",
    ],
}

TREE_TAIL = """
pub ruling-tree : (terms : Terms) → RulingHasTrees (ruling_of terms)
ruling-tree terms = record { sleeps = sleeps_under-tree terms.rules.sleep_clause; freezes = freezes_under-tree terms.rules.freeze_clause }
"""


def trees():
    """The walk up to a whole update. A phase has a tree by itself, so that `HasTree` is in the place of `Keeps P`."""
    files = FILES + "SwitchingIn TurnOrder Turn Falls Step".split()
    lines, _, places, aliases = walk(files, "tree", ["tree_rules"], TREE_RULES, TREE_BY_HAND)
    body = "\n".join(lines).replace("Keeps P", "HasTree").replace("KeepsRuling P", "RulingHasTrees")
    body = TREE_HEAD + re.sub("^  (?=pub|unfolding|%s-tree )" % WORD, "", body, flags=re.M) + "\n" + TREE_TAIL
    parts = dict.fromkeys(("Sends", "Acts", "Suffers"), "Rattle.gen1_machine.specs.Turn")
    return written("TreeWalk", body, written_imports(body, vocabulary(places, aliases, files), aliases, parts))


def imported(text):
    """Each import of a text: a module with one of its words, or with its alias."""
    found = set()
    for line in re.findall(r"^use (.*)$", text, re.M):
        module, _, words = line.partition(".{")
        found.update((module, word.strip()) for word in words.rstrip("}").split(","))
    return found


def is_same(there, text):
    """Whether a file is this text, apart from unused imports and layout."""
    lemmas = [
        [line.split() for line in of.split("\n") if line.strip() and not line.startswith("use ")]
        for of in (there, text)
    ]
    return lemmas[0] == lemmas[1] and imported(there) <= imported(text)


def generated():
    """The text of each file."""
    return {Path(file).resolve(): text for file, text in (free(), sound(), steady(), trees())}
