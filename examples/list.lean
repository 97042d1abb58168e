import AenPrelude
open AenPrelude

inductive List (T : Type) where
  | nil : List T
  | cons : T → (List T) → List T

def fn.sum (n : Nat) (v0 : (List U32)) : Result U32 :=
  match n with
  | 0 => outOfFuel
  | n + 1 => do
    (match v0 with
    | List.nil => do
      ok 0#U32
    | List.cons v1 v2 => do
      let v3 ← fn.sum n v2;
      U32.add v1 v3)

def fn.first {T : Type} (n : Nat) (v0 : (List T)) (v1 : T) : Result (T × Bool) :=
  match n with
  | 0 => outOfFuel
  | n + 1 => do
    (match v0 with
    | List.nil => do
      ok (v1, false)
    | List.cons v2 v3 => do
      ok (v2, true))
