#!/usr/bin/env python3
"""Claims in antt that the definitions of crates/round/specs answer a script of plays as listed, and has the claims checked.

usage: play_claims.py PLAYS.IN PLAYS.OUT [BOOKS]

BOOKS says how many of the script's books are taken, the first ones; without it all are. The script's form is that of the vectors'
plays.in and plays.out. A temporary copy of the repository's crates gets three more modules in the specs of the crate `round`: `Evaluation`
has a book's verdict and a round computed at less cost, with the laws that they are those of the definitions; `Script` carries commands out;
and `Plays`, written anew for each group of books, has a claim on each book's verdict and one on each run of commands, proved by evaluation:
the lines that they answer are the listed ones. `rt check` of the crate `round` checks them there.

    read     book_verdict; the other commands take the verdict from this claim, by laws of `Script`, so that it is computed once
    show     shown
    setup    set_up: its verdict; its game is the next one
    order    ordered: its verdict; its game is the next one
    round    answer, with a buffer of zeros: verdict, passes, count of marks, the total that was cut off, marks, the rest of the buffer; its
             game is the next one
    log      of the last accepted round: its turns, each as the byte that stands for it
    facts    of that round, in the words of Demand.antt: its passes, signals given, routines ended, signal steps of the listed routines;
             that demand 3 held is a theorem, and the listed line must say so
    dump     the game's fields
    poke     overwrites a field. The definitions' game holds no number below 0 and no flag but 0 and 1: a poke of such a value is skipped,
             and so is each order, round and dump until the field is overwritten; a skipped order or round must be listed with refusal 9

A run begins where the game is set up, unless it looks at a game or a round of earlier commands. The last line says how much agrees
(exit 0), or which book and which command comes first that does not (exit 1), or which claims antt gives up at its limit of steps or of
stack (exit 3). Whatever else antt turns down, in the crates or in the modules' own text, stops the tool with antt's output (exit 1).
"""
import os
import re
import shutil
import subprocess
import sys
import tempfile

from game_lines import DUMP, FLAGS, answers, holds

ROOT = os.path.dirname(os.path.dirname(os.path.abspath(__file__)))
FIELDS = ("stage", "place", "left", "susp", "begun", "tostop", "tosuspend", "toresume")
FIELDS += ("R", "E", "C", "listed_len", "tostart_len", "listed", "tostart", "broadcast")

EVALUATION = """\
-- The definitions computed at less cost: a part's steps are taken apart one behind the other, each once, where the definitions look for
-- each from the part's first byte on. Laws say that what comes out is the same.
use Rattle.std.specs.Prelude.{ℕ, zero, suc, ◌+◌, ◌*◌, ◌/◌, ◌≡◌, refl, ◌||◌, not, List, [], ◌∷◌, eqb, ltb, length, get_or, drop}
use Rattle.std.proofs.Common.{arith, add-zero, sym, ◌∙◌, ap, get_or-drop}
use Rattle.std.proofs.Math.Path.{fun_ext}
use Rattle.std.proofs.Math.Dec.{leb-zero, leb-suc-zero, leb-suc-suc}
use Rattle.std.specs.Prelude.{if◌then◌else◌}
use Rattle.numbers.specs.Numbers.{half_of, number_of}
use Rattle.kinds.specs.declared.Step.{Step}
use Rattle.kinds.specs.declared.Step.TheVariants as step
use Rattle.kinds.specs.declared.Counts.{Counts}
use Rattle.kinds.specs.Steps.{step_bytes, op_at, field_a, field_b, field_n, decoded, step_at}
use Rattle.blocks.specs.declared.Walk.{Walk}
use Rattle.blocks.specs.Blocks.{View, seen, beyond, view_at, routine_of}
use Rattle.verdicts.specs.declared.Verdict.{Verdict}
use Rattle.verdicts.specs.Verdicts.{◌or_else◌, first_refusal}
use Rattle.layout.specs.Layout.{routines_of, steps_of, layout_verdict, counts_of}
use Rattle.directory.specs.Directory.{first_step, step_count, directory_verdict, routine_part, routine_steps}
use Rattle.book.specs.Book.{step_verdict, steps_part, steps_verdict, routine_walk}
use Rattle.book.specs.Book.{nesting_of, pausing_of, nesting_verdict, pausing_verdict, book_verdict}
use Rattle.game.specs.declared.Game.{Game}
use Rattle.game.specs.Game.{continuing, routine_at}
use Rattle.round.specs.declared.Position.{Position}
use Rattle.round.specs.declared.Ending.TheVariants.{Continued}
use Rattle.round.specs.State.{State}
use Rattle.round.specs.Actions.{position_of, at_start}
use Rattle.round.specs.Ticks.{tick_at, tick, fresh}
use Rattle.round.specs.Rounds.{Ticks, follow, ticks, most_ticks, PlayedTurns, not_taken, taken, followed_by, for_next_pass}
use Rattle.round.specs.Rounds.{PlayedRound, pass_then, most_passes, listed_in, ticks_of, turn, pass, instant, round}

-- the step of eight bytes
abbrev step_of_bytes : Counts → (ℕ → ℕ) → Step
step_of_bytes counts byte = decoded counts (byte 0) (byte 1) (half_of (byte 2) (byte 3)) (number_of (byte 4) (byte 5) (byte 6) (byte 7))

-- the first n steps of a part
unfoldable pub first_steps : ℕ → Counts → List ℕ → List Step
first_steps zero counts s = []
first_steps (suc n) counts s =
    let first = step_of_bytes counts (λ k. get_or s k 0) in
    let others = first_steps n counts (drop step_bytes s) in
    first ∷ others

byte_behind : (s : List ℕ) (i k : ℕ) → get_or (drop step_bytes s) (i * step_bytes + k) 0 ≡ get_or s (suc i * step_bytes + k) 0
byte_behind s i k = let e : step_bytes + (i * step_bytes + k) ≡ suc i * step_bytes + k = omega arith in rw (get_or-drop, e)

step_in_lem : (n : ℕ) (counts : Counts) (s : List ℕ) (i : ℕ)
    → (if ltb i n then step_of_bytes counts (λ k. get_or s (i * step_bytes + k) 0) else step.Refused)
    ≡ get_or (first_steps n counts s) i step.Refused
unfolding first_steps
step_in_lem zero counts s i = rw (leb-suc-zero i)
step_in_lem (suc n) counts s zero = rw (leb-suc-suc 0 n, leb-zero n)
step_in_lem (suc n) counts s (suc i) =
    rw (leb-suc-suc (suc i) n)
    (sym (ap (λ byte. if ltb i n then step_of_bytes counts byte else step.Refused) (fun_ext (byte_behind s i)))
    ∙ step_in_lem n counts (drop step_bytes s) i)

abbrev all_steps : Counts → List ℕ → List Step
all_steps counts s = first_steps (length s / step_bytes) counts s

abbrev step_in : List Step → ℕ → Step
step_in l i = get_or l i step.Refused

op_first : (s : List ℕ) (i : ℕ) → op_at s i ≡ get_or s (i * step_bytes + 0) 0
op_first s i = rw (add-zero (i * step_bytes))

step_at_lem : (counts : Counts) (s : List ℕ) → step_at counts s ≡ step_in (all_steps counts s)
unfolding step_at
step_at_lem counts s =
    fun_ext
    (λ i.
    ap
    (λ op. if ltb i (length s / step_bytes) then decoded counts op (field_a s i) (field_b s i) (field_n s i) else step.Refused)
    (op_first s i)
    ∙ step_in_lem (length s / step_bytes) counts s i)

-- the blocks of a routine
abbrev view_in : List Step → ℕ → ℕ → View
view_in l n p = if ltb p n then seen (step_in l p) else beyond

view_at_lem : (counts : Counts) (s : List ℕ) (n : ℕ) → view_at counts s n ≡ view_in (all_steps counts s) n
unfolding view_at
view_at_lem counts s n = ap {B = ℕ → View} (λ (at : ℕ → Step) p. if ltb p n then seen (at p) else beyond) (step_at_lem counts s)

abbrev walk_in : List ℕ → ℕ → Walk
walk_in s r = let l = all_steps (counts_of s) (routine_part s r) in routine_of (view_in l (step_count s r)) (step_count s r)

walk_in_lem : (s : List ℕ) (r : ℕ) → routine_walk s r ≡ walk_in s r
unfolding routine_walk
walk_in_lem s r = ap (λ at. routine_of at (step_count s r)) (view_at_lem (counts_of s) (routine_part s r) (step_count s r))

-- a book's verdict, given what its steps are and how its routines' blocks are read
abbrev verdict_by : (ℕ → Step) → (ℕ → Walk) → List ℕ → Verdict
verdict_by at walk s =
    layout_verdict s
    or_else directory_verdict s
    or_else first_refusal (λ i. step_verdict (at i) i) (steps_of s) 0
    or_else first_refusal (λ r. nesting_of (first_step s r) (walk r)) (routines_of s) 0
    or_else first_refusal (λ r. pausing_of (first_step s r) (step_count s r) (walk r)) (routines_of s) 0

abbrev verdict_in : List ℕ → Verdict
verdict_in s = let l = all_steps (counts_of s) (steps_part s) in verdict_by (step_in l) (walk_in s) s

pub book_verdict_lem : (s : List ℕ) (v : Verdict) → verdict_in s ≡ v → book_verdict s ≡ v
unfolding book_verdict steps_verdict nesting_verdict pausing_verdict
book_verdict_lem s v e =
    ap (λ at. verdict_by at (routine_walk s) s) (step_at_lem (counts_of s) (steps_part s))
    ∙ ap (λ walk. verdict_by (step_in (all_steps (counts_of s) (steps_part s))) walk s) (fun_ext (walk_in_lem s))
    ∙ e

-- a round: the definitions of Rounds.antt over what the steps are, and over a turn
unfoldable pub ticks_by : (ℕ → Step) → ℕ → ℕ → List ℕ → Position → State → Ticks
ticks_by at zero r steps x s = record { ending = Continued; position = x; state = s; trace = [] }
ticks_by at (suc n) r steps x s =
    let t = tick_at r steps x s (at x.place) in
    follow r x.place t.act t.events s (λ p u. ticks_by at n r steps (fresh p) u)

ticks_by_lem : (n : ℕ) (counts : Counts) (r : ℕ) (steps : List ℕ) (x : Position) (s : State)
    → ticks n counts r steps x s ≡ ticks_by (step_at counts steps) n r steps x s
unfolding ticks tick ticks_by
ticks_by_lem zero counts r steps x s = refl
ticks_by_lem (suc n) counts r steps x s =
    let t = tick_at r steps x s (step_at counts steps x.place) in
    ap (follow r x.place t.act t.events s) (fun_ext (λ p. fun_ext (λ u. ticks_by_lem n counts r steps (fresh p) u)))

abbrev turn_by : (ℕ → State → Ticks) → ℕ → State → PlayedTurns
turn_by ticking r s =
    let x = routine_at s.game r in
    if x.suspended || not (eqb x.stage continuing) then not_taken s else taken r (ticking r s)

abbrev ticks_in : List ℕ → ℕ → State → Ticks
ticks_in book r s =
    let steps = routine_steps book r in
    let l = all_steps (counts_of book) steps in
    ticks_by (step_in l) (most_ticks steps) r steps (position_of (routine_at s.game r)) s

ticks_in_lem : (book : List ℕ) (r : ℕ) (s : State) → ticks_of book r s ≡ ticks_in book r s
ticks_in_lem book r s =
    let steps = routine_steps book r in
    let x = position_of (routine_at s.game r) in
    ticks_by_lem (most_ticks steps) (counts_of book) r steps x s
    ∙ ap (λ at. ticks_by at (most_ticks steps) r steps x s) (step_at_lem (counts_of book) steps)

turn_in : (book : List ℕ) → turn book ≡ turn_by (ticks_in book)
unfolding turn
turn_in book = ap turn_by (fun_ext (λ r. fun_ext (ticks_in_lem book r)))

module _ (turning : ℕ → State → PlayedTurns) where
  unfoldable pub pass_by : List ℕ → State → PlayedTurns
  pass_by [] s = record { state = s; trace = []; turns = [] }
  pass_by (r ∷ rs) s =
      let first = turning r s in
      followed_by first (pass_by rs first.state)

  unfoldable pub instant_by : ℕ → List ℕ → State → PlayedRound
  instant_by zero rs s = record { played = record { state = s; trace = []; turns = [] }; passes = 0 }
  instant_by (suc n) rs s =
      let first = pass_by rs s in
      pass_then first (instant_by n rs (for_next_pass first.state))

pass_by_lem : (book rs : List ℕ) (s : State) → pass book rs s ≡ pass_by (turn book) rs s
unfolding pass pass_by
pass_by_lem book [] s = refl
pass_by_lem book (r ∷ rs) s = ap (followed_by (turn book r s)) (pass_by_lem book rs (turn book r s).state)

instant_by_lem : (book : List ℕ) (n : ℕ) (rs : List ℕ) (s : State) → instant book n rs s ≡ instant_by (turn book) n rs s
unfolding instant instant_by
instant_by_lem book zero rs s = refl
instant_by_lem book (suc n) rs s =
    ap (λ first. pass_then first (instant book n rs (for_next_pass first.state))) (pass_by_lem book rs s)
    ∙ ap (pass_then (pass_by (turn book) rs s)) (instant_by_lem book n rs (for_next_pass (pass_by (turn book) rs s).state))

abbrev pub round_in : List ℕ → Game → PlayedRound
round_in book g = instant_by (turn_by (ticks_in book)) most_passes (listed_in g) (at_start g)

pub round_in_lem : (book : List ℕ) (g : Game) → round book g ≡ round_in book g
unfolding round
round_in_lem book g =
    instant_by_lem book most_passes (listed_in g) (at_start g)
    ∙ ap (λ turning. instant_by turning most_passes (listed_in g) (at_start g)) (turn_in book)
"""

SCRIPT = """\
-- Scripts of plays: each command carried out by the definitions, with the lines of numbers that it answers.
use Rattle.std.specs.Prelude.{ℕ, zero, suc, ◌+◌, ◌*◌, ◌≡◌, refl, Bool, ◌&&◌, List, [], ◌∷◌, ◌++◌, map, eqb, ltb, set, take, drop, replicate, ℤ, pos}
use Rattle.std.proofs.Common.{ap}
use Rattle.std.specs.Prelude.{if◌then◌else◌}
use Rattle.numbers.specs.Counting.{how_many}
use Rattle.verdicts.specs.declared.Verdict.{Verdict}
use Rattle.verdicts.specs.Verdicts.{◌or_else◌}
use Rattle.layout.specs.Layout.{most_routines, most_signals, routines_of, counts_of}
use Rattle.directory.specs.Directory.{routine_steps}
use Rattle.book.specs.Book.{book_verdict, shown}
use Rattle.game.specs.declared.Routine.{Routine}
use Rattle.lines.specs.declared.Line.{Line}
use Rattle.game.specs.declared.Game.{Game}
use Rattle.lines.specs.Lines.{entries_of}
use Rattle.game.specs.Game.{blank_game, routine_at, is_broadcast, with_counter}
use Rattle.setup.specs.SetUp.{new_game, set_up}
use Rattle.orders.specs.Orders.{number_verdict, order_verdict, obeyed, ordered}
use Rattle.round.specs.declared.Ending.TheVariants.{Ended, Rested, Missed, Continued}
use Rattle.round.specs.Actions.{at_start}
use Rattle.game.specs.declared.Outcome.{Outcome}
use Rattle.game.specs.Outcomes.{unless_refused}
use Rattle.fitting.specs.Fitting.{fit_verdict}
use Rattle.round.specs.declared.Turn.{Turn}
use Rattle.round.specs.declared.Turn.TheVariants.{PassedOver, Took}
use Rattle.round.specs.Rounds as rounds
use Rattle.round.specs.Answers.{numbers_per_mark, space_verdict, numbers_verdict, round_verdict, Answer, turned_down, played_out, answer}
use Rattle.round.specs.claims.Demand.{is_signal_step, gives_signal, ends_routine, count_steps}
use Rattle.round.specs.Evaluation.{round_in, round_in_lem}

-- The calls, given the book's verdict b, which is claimed once for each book, and the round p.
abbrev shown_by : Verdict → List ℕ → ℕ → List ℕ
shown_by b s r = if eqb b.number 0 && ltb r (routines_of s) then routine_steps s r else []

pub shown_by_lem : (s : List ℕ) (r : ℕ) → shown s r ≡ shown_by (book_verdict s) s r
unfolding shown
shown_by_lem s r = refl

abbrev set_up_by : Verdict → List ℕ → Game → Outcome
set_up_by b s g = unless_refused b (new_game (counts_of s)) g

pub set_up_by_lem : (s : List ℕ) (g : Game) → set_up s g ≡ set_up_by (book_verdict s) s g
unfolding set_up
set_up_by_lem s g = refl

abbrev ordered_by : Verdict → List ℕ → Game → ℕ → ℕ → Outcome
ordered_by b s g kind n = unless_refused (b or_else fit_verdict s g or_else number_verdict s kind n) (obeyed g kind n) g

pub ordered_by_lem : (s : List ℕ) (g : Game) (kind n : ℕ) → ordered s g kind n ≡ ordered_by (book_verdict s) s g kind n
unfolding ordered order_verdict
ordered_by_lem s g kind n = refl

abbrev answer_by : Verdict → rounds.PlayedRound → List ℕ → Game → List ℤ → Answer
answer_by b p s g buffer =
    let v = b or_else fit_verdict s g or_else space_verdict s buffer or_else numbers_verdict p in
    if eqb v.number 0 then played_out v p buffer else turned_down v g buffer

pub answer_by_lem : (s : List ℕ) (g : Game) (buffer : List ℤ) → answer s g buffer ≡ answer_by (book_verdict s) (round_in s g) s g buffer
unfolding answer round_verdict
answer_by_lem s g buffer = ap (λ p. answer_by (book_verdict s) p s g buffer) (round_in_lem s g)

-- a field goes by its place among: stage, place, left, susp, begun, tostop, tosuspend, toresume, R, E, C, listed_len, tostart_len,
-- listed, tostart, broadcast; a counter's content is signed
pub data Command : Type 0 where
  Book : List ℕ → Verdict → Command
  Read : Command
  Show : ℕ → Command
  SetUp : Command
  Order : ℕ → ℕ → Command
  Round : ℕ → Command
  Poke : ℕ → ℕ → ℕ → Command
  PokeCounter : ℕ → ℤ → Command
  Log : Command
  Facts : Command
  Dump : Command

-- what the commands work on: the book with its verdict, the game, and the last accepted round, with its book and game as lent
pub record Table : Type 0 where
  pub book : List ℕ
  pub verdict : Verdict
  pub game : Game
  pub last : rounds.PlayedRound
  pub book_lent : List ℕ
  pub game_lent : Game

abbrev pub Lines : Type 0
Lines = List (List ℤ)

pub record Done : Type 0 where
  pub lines : Lines
  pub table : Table

abbrev with_book : Table → List ℕ → Verdict → Table
with_book t s b = record { book = s; verdict = b; game = t.game; last = t.last; book_lent = t.book_lent; game_lent = t.game_lent }

abbrev with_game : Table → Game → Table
with_game t g = record { book = t.book; verdict = t.verdict; game = g; last = t.last; book_lent = t.book_lent; game_lent = t.game_lent }

abbrev line : List ℕ → List ℤ
line = map pos

abbrev verdict_line : Verdict → List ℕ
verdict_line v = v.number ∷ v.place ∷ []

abbrev flag : Bool → ℕ
flag b = if b then 1 else 0

-- a field overwritten
abbrev poked_routine : ℕ → ℕ → Routine → Routine
poked_routine field v x =
    record {
      stage = if eqb field 0 then v else x.stage;
      place = if eqb field 1 then v else x.place;
      left = if eqb field 2 then v else x.left;
      suspended = if eqb field 3 then eqb v 1 else x.suspended;
      begun = if eqb field 4 then eqb v 1 else x.begun;
      stopping = if eqb field 5 then eqb v 1 else x.stopping;
      suspending = if eqb field 6 then eqb v 1 else x.suspending;
      resuming = if eqb field 7 then eqb v 1 else x.resuming;
    }

abbrev poked_line : Bool → Bool → ℕ → ℕ → Line → Line
poked_line size item i v l = record { items = if item then set l.items i v else l.items; len = if size then v else l.len }

abbrev poked : ℕ → ℕ → ℕ → Game → Game
poked field i v g =
    record {
      counts =
          record {
            routines = if eqb field 8 then v else g.counts.routines;
            signals = if eqb field 9 then v else g.counts.signals;
            counters = if eqb field 10 then v else g.counts.counters;
          };
      routines = if ltb field 8 then set g.routines i (poked_routine field v (routine_at g i)) else g.routines;
      counters = g.counters;
      listed = poked_line (eqb field 11) (eqb field 13) i v g.listed;
      starting = poked_line (eqb field 12) (eqb field 14) i v g.starting;
      broadcast = if eqb field 15 then set g.broadcast i (eqb v 1) else g.broadcast;
    }

-- the first n numbers of a kind, rising
unfoldable pub numbers_below : ℕ → (ℕ → Bool) → List ℕ
numbers_below zero test = []
numbers_below (suc n) test = numbers_below n test ++ (if test n then n ∷ [] else [])

-- each of the first n routines
unfoldable pub routine_lines : ℕ → Game → Lines
routine_lines zero g = []
routine_lines (suc r) g =
    let x = routine_at g r in
    routine_lines r g
    ++ (line (r ∷ x.stage ∷ flag x.suspended ∷ x.place ∷ flag x.begun ∷ x.left ∷ []) ∷ [])

abbrev dumped : Game → Lines
dumped g =
    line (g.counts.routines ∷ g.counts.signals ∷ g.counts.counters ∷ [])
    ∷ routine_lines g.counts.routines g
    ++ (take g.counts.counters g.counters
    ∷ line (entries_of g.listed)
    ∷ line (entries_of g.starting)
    ∷ line (numbers_below most_routines (λ r. (routine_at g r).stopping))
    ∷ line (numbers_below most_routines (λ r. (routine_at g r).suspending))
    ∷ line (numbers_below most_routines (λ r. (routine_at g r).resuming))
    ∷ line (numbers_below most_signals (is_broadcast g))
    ∷ [])

-- a byte for each turn
abbrev turn_byte : Turn → ℕ
turn_byte PassedOver = 0
turn_byte (Took Ended) = 1
turn_byte (Took Rested) = 2
turn_byte (Took Missed) = 2
turn_byte (Took Continued) = 3

-- a line for each mark
unfoldable pub mark_lines : List ℤ → Lines
mark_lines [] = []
mark_lines (x ∷ []) = (x ∷ []) ∷ []
mark_lines (x ∷ y ∷ rest) = (x ∷ y ∷ []) ∷ mark_lines rest

-- the answer's line, its marks, and the rest of the buffer
abbrev round_lines : Answer → Lines
round_lines a =
    let n = numbers_per_mark * a.marks in
    line (a.verdict.number ∷ a.verdict.place ∷ a.passes ∷ a.marks ∷ a.lost ∷ [])
    ∷ mark_lines (take n a.buffer)
    ++ (drop n a.buffer ∷ [])

abbrev round_done : Table → rounds.PlayedRound → Answer → Done
round_done t p a =
    record {
      lines = round_lines a;
      table =
          if eqb a.verdict.number 0
          then record {
            book = t.book;
            verdict = t.verdict;
            game = a.game;
            last = p;
            book_lent = t.book;
            game_lent = t.game;
          }
          else with_game t a.game;
    }

abbrev done : Command → Table → Done
done (Book s b) t = record { lines = []; table = with_book t s b }
done Read t = record { lines = line (verdict_line t.verdict) ∷ []; table = t }
done (Show r) t = record { lines = line (shown_by t.verdict t.book r) ∷ []; table = t }
done SetUp t =
    let o = set_up_by t.verdict t.book t.game in
    record { lines = line (verdict_line o.verdict) ∷ []; table = with_game t o.game }
done (Order kind n) t =
    let o = ordered_by t.verdict t.book t.game kind n in
    record { lines = line (verdict_line o.verdict) ∷ []; table = with_game t o.game }
done (Round size) t =
    let p = round_in t.book t.game in
    round_done t p (answer_by t.verdict p t.book t.game (replicate size (pos 0)))
done (Poke field i v) t = record { lines = []; table = with_game t (poked field i v t.game) }
done (PokeCounter i v) t = record { lines = []; table = with_game t (with_counter t.game i v) }
done Log t = record { lines = line (map turn_byte t.last.played.turns) ∷ []; table = t }
done Facts t =
    let trace = t.last.played.trace in
    let listed = entries_of (at_start t.game_lent).game.listed in
    record {
      lines =
          line
          (t.last.passes
          ∷ how_many gives_signal trace
          ∷ how_many ends_routine trace
          ∷ count_steps t.book_lent (is_signal_step t.book_lent) listed
          ∷ [])
          ∷ [];
      table = t;
    }
done Dump t = record { lines = dumped t.game; table = t }

-- the lines of each command in turn
unfoldable pub played_from : List Command → Table → List Lines
played_from [] t = []
played_from (c ∷ cs) t =
    let d = done c t in
    d.lines ∷ played_from cs d.table

-- from no book, a game whose fields are all 0, and its round
abbrev pub played : List Command → List Lines
played cs =
    played_from cs
    (record {
      book = [];
      verdict = book_verdict [];
      game = blank_game;
      last = round_in [] blank_game;
      book_lent = [];
      game_lent = blank_game;
    })
"""

UNFOLDING = """\
unfolding played_from numbers_below routine_lines mark_lines obeyed written marks_in sum_below sum_over how_many instant_by pass_by all_done
    ticks_by effect_on tick_of waits_for from_end opening_before past_partner at_start each kept appended is_there is_end_there numbers_with new_game
    blank_game with_start is_sized fits_book routine_fits slot_fits entry_fits line_fits counters_fit signals_fit is_in all_below any_below layout_verdict
    directory_verdict routine_part routine_of step_of block_by partner_of first_steps step_at decoded row_of steps_before first_refusal
"""

HEADER = """\
-- Books of a script of plays, and what their commands answer.
use Rattle.std.specs.Prelude.{ℕ, ◌≡◌, refl, List, [], ◌∷◌, replicate, ℤ, pos, negsuc}
use Rattle.numbers.specs.Counting.{sum_over, how_many, all_below, any_below, sum_below}
use Rattle.kinds.specs.Steps.{row_of, decoded, step_at}
use Rattle.blocks.specs.Blocks.{block_by, step_of, routine_of}
use Rattle.partners.specs.Partners.{partner_of}
use Rattle.verdicts.specs.Verdicts.{refused, first_refusal}
use Rattle.layout.specs.Layout.{layout_verdict}
use Rattle.directory.specs.Directory.{steps_before, directory_verdict, routine_part}
use Rattle.book.specs.Book.{book_verdict}
use Rattle.lines.specs.Lines.{is_in, appended}
use Rattle.game.specs.Game.{blank_game, with_start}
use Rattle.fitting.specs.Arrays.{entry_fits, line_fits, counters_fit, signals_fit}
use Rattle.fitting.specs.Routines.{routine_fits, slot_fits}
use Rattle.fitting.specs.Fitting.{is_sized, fits_book}
use Rattle.setup.specs.SetUp.{new_game}
use Rattle.orders.specs.Orders.{obeyed}
use Rattle.round.specs.State.{numbers_with, is_end_there, is_there}
use Rattle.round.specs.Actions.{kept, each, at_start}
use Rattle.round.specs.Jumps.{past_partner, opening_before, from_end}
use Rattle.round.specs.Ticks.{waits_for, tick_of, effect_on}
use Rattle.round.specs.Rounds.{all_done}
use Rattle.round.specs.Answers.{marks_in, written}
use Rattle.round.specs.Evaluation.{first_steps, book_verdict_lem, ticks_by, pass_by, instant_by}
use Rattle.round.specs.Script.{Command, Book, Read, Show, SetUp, Order, Round, Poke, PokeCounter, Log, Facts, Dump, Lines}
use Rattle.round.specs.Script.{numbers_below, routine_lines, mark_lines, played_from, played}
"""

# runs of books to a module
RUNS = 16
# what is told of a claim that antt gives up
LIMITS = ("stopped at the step limit", "deep recursion")


class Disagrees(Exception):
    """A command that does not answer as listed."""


class Step:
    """A command of the script: its book, its line in the file, and the lines that are listed for it."""

    def __init__(self, book, line, command, told):
        self.book, self.line, self.command, self.told = book, line, command, told
        self.word, *self.rest = command.split()

    def disagrees(self):
        return Disagrees(f"book {self.book.number}, line {self.line}: '{self.command[:60]}' does not answer {self.told}")


class Book:
    """A book of the script: its number, its bytes, the commands from it on, and the verdict that is listed."""

    def __init__(self, number, text):
        self.number, self.bytes, self.steps, self.verdict = number, bytes_of(text), [], None

    def parts(self):
        """Its commands, in parts that begin where the game is set up."""
        parts = [[]]
        for step in self.steps:
            if step.told == ["setup 0 0"]:
                parts.append(self.steps[:1])
            parts[-1] = parts[-1] + [step]
        return [part for part in parts if len(part) > 1]


def joined(items):
    return "".join(f"{item} ∷ " for item in items) + "[]"


def signed(n):
    return f"pos {n}" if n >= 0 else f"negsuc {-n - 1}"


def bytes_of(text):
    return [] if text == "-" else list(bytes.fromhex(text))


def well_formed(step):
    """The words of the listed lines are those of the command, and of facts the four parts of demand 3 held."""
    words = [line.split()[0] for line in step.told]
    if step.word == "round":
        return words == ["round"] + ["mark"] * (len(words) - 1)
    if step.word == "dump":
        return words == ["game"] + ["routine"] * (len(words) - 1 - len(DUMP)) + list(DUMP)
    if step.word == "facts" and step.told[0].split()[5:] != ["1"] * 4:
        return False
    return words == ([] if step.word in ("book", "poke") else [step.word])


def is_held(field, value):
    """Whether the definitions' game can hold the value: its numbers have no largest one."""
    return holds(field, value) or field not in FLAGS and value >= 0


def claimed(books):
    """Takes out the commands that cannot be claimed, and answers how many they are."""
    unheld, skipped = set(), 0
    for book in books:
        kept = []
        for step in book.steps:
            if not well_formed(step):
                raise step.disagrees()
            skip = False
            if step.told == ["setup 0 0"]:
                unheld = set()
            elif step.word == "poke":
                skip = not is_held(step.rest[0], int(step.rest[2]))
                (unheld.add if skip else unheld.discard)((step.rest[0], step.rest[1]))
            elif unheld and step.word in ("order", "round", "dump"):
                skip = True
                verdict = "9 0" if book.verdict == "0 0" else book.verdict
                refusal = {"order": f"order {verdict}", "round": f"round {verdict} 0 0 0"}
                if step.word != "dump" and step.told != [refusal[step.word]]:
                    raise step.disagrees()
            skipped += skip
            kept += [] if skip else [step]
        book.steps = kept
    return skipped


def follows(steps):
    """Whether some commands look at a game or a round of earlier ones."""
    game = trace = True
    for step in steps:
        if step.told == ["setup 0 0"]:
            game = False
        elif step.word in ("order", "round", "poke", "dump") and game or step.word in ("log", "facts") and trace:
            return True
        elif step.word == "round" and step.told[0].startswith("round 0 "):
            trace = False
    return False


def groups_of(books):
    """Runs of commands, grouped: a run looks at no game and no round of an earlier one, and a group has whole books."""
    runs = []
    for book in books:
        for part in book.parts():
            while runs and follows(part):
                part = runs.pop() + part
            runs.append(part)
    groups = [[]]
    for run in runs:
        if len(groups[-1]) >= RUNS and groups[-1][-1][-1].book is not run[0].book:
            groups.append([])
        groups[-1].append(run)
    return groups


def command_term(step):
    if step.word == "book":
        return f"Book book{step.book.number} (refused {step.book.verdict})"
    if step.word == "poke":
        field, i, value = step.rest[0], step.rest[1], int(step.rest[2])
        return f"PokeCounter {i} ({signed(value)})" if field == "counter" else f"Poke {FIELDS.index(field)} {i} {value}"
    return " ".join([{"setup": "SetUp"}.get(step.word, step.word.capitalize())] + step.rest)


def lines_term(step):
    lines = [line.split()[1:] for line in step.told]
    if step.word in ("show", "log"):
        lines = [bytes_of(numbers[0]) for numbers in lines]
    if step.word == "facts":
        lines = [lines[0][:4]]
    terms = ["(" + joined(signed(int(n)) for n in numbers) + ")" for numbers in lines]
    if step.word == "round":
        terms.append(f"replicate {max(0, int(step.rest[0]) - 2 * int(lines[0][3]))} (pos 0)")
    return "(" + joined(terms) + ")"


def claim(name, statement, proof="refl", unfolding=UNFOLDING):
    return f"\npub {name} : {statement}\n{unfolding}{name} = {proof}\n"


def book_text(book):
    """A book, and the claim on its verdict."""
    i, wanted = book.number, f"refused {book.verdict}"
    text = f"\nabbrev book{i} : List ℕ\nbook{i} = {joined(book.bytes)}\n"
    return text + claim(f"read{i}", f"book_verdict book{i} ≡ {wanted}", f"book_verdict_lem book{i} ({wanted}) refl")


def name_of(run):
    """The name of the claim on a run: the line of its first command behind the book."""
    return f"agrees{run[1].line}"


def run_text(run):
    """The claim on a run."""
    i = run[1].line
    text = f"\nabbrev script{i} : List Command\nscript{i} = {joined(map(command_term, run))}\n"
    text += f"\nabbrev lines{i} : List Lines\nlines{i} = {joined(map(lines_term, run))}\n"
    return text + claim(name_of(run), f"played script{i} ≡ lines{i}")


def text_of(runs):
    """The claims on some runs and their books."""
    books = {step.book.number: step.book for run in runs for step in run}
    return "".join(map(book_text, books.values())) + "".join(map(run_text, runs))


def names_of(text):
    """The names of the claims in a text."""
    return re.findall(r"^pub (\w+) :", text, re.M)


def failing(copy, text):
    """Has a module with this text checked, and answers the claims that do not hold, each with what is told of it. Anything else that the
    checker turns down stops the tool."""
    specs = os.path.join(copy, "crates/round/specs")
    root = open(os.path.join(ROOT, "crates/round/specs/Lib.antt")).read()
    modules = {"Evaluation": EVALUATION, "Script": SCRIPT, "Plays": HEADER + text}
    modules["Lib"] = root + "".join(f"pub mod {name}\n" for name in modules)
    for name, content in modules.items():
        open(os.path.join(specs, name + ".antt"), "w").write(content)
    done = subprocess.run(["rt", "check"], cwd=os.path.join(copy, "crates/round"), text=True, stdout=subprocess.PIPE,
                          stderr=subprocess.STDOUT)
    errors = re.findall(r"^(?:.*: )?error: .*", done.stdout, re.M)
    found = [re.fullmatch(r".*/Plays\.antt:\d+:\d+: error: `(\w+)`: (.*)", error) for error in errors]
    told = {error[1]: error[2] for error in found if error and error[1] in names_of(text)}
    # there is no verdict where antt gave up each claim that fails
    verdict = r"^(logic=not-proved|rattle: no verdict)" if told else r"^logic=proved "
    if len(told) < len(errors) or not re.search(verdict, done.stdout, re.M):
        sys.exit(done.stdout)
    return told


def first_wrong(copy, run):
    """The first command of a run that does not agree, by halving: the claim holds of some first commands and not of more."""
    good, bad = 1, len(run)
    while bad - good > 1:
        middle = (good + bad) // 2
        wrong = failing(copy, text_of([run[:middle]]))
        good, bad = (good, middle) if name_of(run) in wrong else (middle, bad)
    return run[bad - 1]


def disagreement(copy, runs, wrong):
    """The first command that does not agree, where these claims on some runs and their books do not hold."""
    found = [step for run in runs for step in run
             if step.word == "read" and f"read{step.book.number}" in wrong]
    failed = [run for run in runs if name_of(run) in wrong]
    if failed:
        found.append(first_wrong(copy, failed[0]))
    return min(found, key=lambda step: step.line).disagrees()


def books_of(plays_in, plays_out):
    """The books of a script."""
    commands = [line for line in open(plays_in).read().split("\n") if line]
    books = []
    for line, (command, told) in enumerate(answers(commands, open(plays_out).read().split("\n")), 1):
        if command.startswith("book"):
            books.append(Book(len(books), command.split()[1]))
        books[-1].steps.append(Step(books[-1], line, command, told))
        if command == "read":
            books[-1].verdict = " ".join(told[0].split()[1:])
    for book in books:
        if not book.verdict:
            sys.exit(f"book {book.number} is never read")
    return books


def copied(copy):
    """Copies the crates, and what is proved of them."""
    for name in ("crates", "target"):
        if os.path.isdir(os.path.join(ROOT, name)):
            shutil.copytree(os.path.join(ROOT, name), os.path.join(copy, name))
    shutil.copy(os.path.join(ROOT, "crates.txt"), copy)


def main():
    books = books_of(*sys.argv[1:3])[: int(sys.argv[3]) if len(sys.argv) > 3 else None]
    skipped = claimed(books)
    claims, unfinished = 0, []
    with tempfile.TemporaryDirectory() as copy:
        copied(copy)
        for runs in groups_of(books):
            text = text_of(runs)
            claims += len(names_of(text))
            told = failing(copy, text)
            # no claim cites another one, so each that is not decided says so itself
            undecided = [name for name in told if any(limit in told[name] for limit in LIMITS)]
            wrong = told.keys() - set(undecided)
            if wrong:
                raise disagreement(copy, runs, wrong)
            unfinished += undecided
            left = f", but {' '.join(undecided)} not decided" if undecided else ""
            print(f"books {runs[0][0].book.number} to {runs[-1][-1].book.number} agree{left}", flush=True)
    rounds = sum(step.word == "round" for book in books for step in book.steps)
    whole = f"{len(books)} books, {rounds} rounds, {claims} claims"
    if unfinished:
        print(f"{whole}: {len(unfinished)} not decided, {' '.join(unfinished)}; all others agree; {skipped} commands skipped")
        sys.exit(3)
    print(f"{whole}: all agree; {skipped} commands skipped")


if __name__ == "__main__":
    try:
        main()
    except Disagrees as error:
        print(error)
        sys.exit(1)
