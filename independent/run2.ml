(* The second engine's I/O, not proved: run2 hh|manne N [P] < SCRIPT, or run2 --from FILE < SCRIPT. *)
open Audit_core

let number s = read_num (List.of_seq (String.to_seq s))
let stop status text = flush stdout; prerr_endline text; exit status
let bad_words () = stop 2 "usage: run2 hh|manne NODES [PRESENT] < SCRIPT, or run2 --from FILE < SCRIPT"
let write = List.iter (fun l -> List.iter print_char l; print_char '\n')

(* Writes what was done, and takes the turns that are left. *)
let rec carry_on line = function
  | NotACommand -> stop 2 (Printf.sprintf "! line %d: not a command" line)
  | LogFull -> stop 4 "! log full"
  | Did (m, None, ls) -> write ls; m
  | Did (m, Some t, ls) -> write ls; carry_on line (run_turn m t)

let rec go line m =
  match input_line stdin with
  | exception End_of_file -> ()
  | s -> go (line + 1) (carry_on line (run_line m (List.of_seq (String.to_seq s))))

(* The machine at the end of the transcript in a file. *)
let ended path =
  let file = open_in_bin path in
  let rec read a = match input_char file with
    | c -> read (capped_step a c)
    | exception End_of_file -> a.c_at in
  let a = read capped_fresh in
  match end_of a, a.a_phase with
  | Accepted0 _, Going m -> m
  | verdict, _ -> stop 1 ("! " ^ path ^ ": " ^ String.of_seq (List.to_seq (verdict_text verdict)))

let begun rules nodes present =
  let header p = { h_rules = rules; h_nodes = nodes; h_present = p } in
  if not (header_ok (header nodes)) then bad_words ();
  if not (header_ok (header present)) then stop 2 "! bad present";
  begin_run (header present)

let () =
  set_binary_mode_in stdin true;
  let m, ls = match Sys.argv with
    | [| _; "--from"; path |] -> (try resume (ended path) with Sys_error _ -> stop 3 "! read failed")
    | [| _; "hh" | "manne" as rules; _ |] | [| _; "hh" | "manne" as rules; _; _ |] ->
      (match number Sys.argv.(2), number Sys.argv.(Array.length Sys.argv - 1) with
       | Some n, Some p -> begun (if rules = "hh" then Hh else Manne) n p
       | _ -> bad_words ())
    | _ -> bad_words () in
  match write ls; go 1 m; flush stdout with
  | () -> ()
  | exception Sys_error _ -> prerr_endline "! write failed"; exit 3
  | exception (Out_of_memory | Stack_overflow) -> prerr_endline "! out of memory"; exit 4
