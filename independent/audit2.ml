(* The part that is not proved: bytes in, lines out, an exit status.  audit2 [epochs] < TRANSCRIPT. *)
open Audit_core

let write l = List.iter print_char l; print_newline ()
let put l = List.iter print_char l; print_char '\n'

(* Feeds standard input byte by byte, until a line has failed. *)
let fed step phase fresh =
  let chunk = Bytes.create 65536 in
  let rec go a =
    match phase a with
    | Bad _ -> a
    | _ ->
      match input stdin chunk 0 (Bytes.length chunk) with
      | 0 -> a
      | n ->
        let a = ref a in
        for k = 0 to n - 1 do a := step !a (Bytes.unsafe_get chunk k) done;
        go !a
      | exception Sys_error _ -> prerr_endline "! read failed"; exit 3
  in
  go fresh

let say verdict = write (verdict_text verdict); match verdict with Accepted0 _ -> 0 | Refused0 _ -> 1
let audit () = say (end_of (fed capped_step (fun a -> a.c_at.a_phase) capped_fresh).c_at)
let epochs () =
  match view_end (fed view_step (fun v -> v.v_at.c_at.a_phase) view_fresh) with
  | Verdict verdict -> say verdict
  | Rows (rules, rows) -> put head_line; List.iter (fun x -> put (row_line rules x)) rows; flush stdout; 0

let () =
  let work = match Sys.argv with
    | [| _ |] -> audit
    | [| _; "epochs" |] -> epochs
    | _ -> prerr_endline "usage: audit2 [epochs] < TRANSCRIPT"; exit 2 in
  set_binary_mode_in stdin true;
  match work () with
  | status -> exit status
  | exception Sys_error _ -> prerr_endline "! write failed"; exit 3
  | exception (Out_of_memory | Stack_overflow) -> prerr_endline "! out of memory"; exit 4
