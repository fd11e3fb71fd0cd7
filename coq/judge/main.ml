(* Reads jobs `check`, one on each line, as docs/FORMATS.md says, and writes for each its cost or
   `refused`, or that it has no answer, if memory runs out. If a job has a member `list` too, the
   plan has to be one of that list, in which the flag 0x0001 of an operation is a barrier before it.
   This file has to be trusted: that it hands the members of the job to the checker as they are. *)
open Checker

exception Bad of string

let below_2_64 text = (* decimal digits alone *)
  if text = "" || String.exists (fun c -> c < '0' || c > '9') text then raise (Bad "number");
  try Int64.of_string ("0u" ^ text) with Failure _ -> raise (Bad "number")

let whole = function
  | `Int i when i >= 0 -> Int64.of_int i
  | `Intlit t -> below_2_64 t
  | _ -> raise (Bad "number")

let number v = Num.number (whole v)

let table = Array.init 256 (fun i -> Num.number (Int64.of_int i))

let digit = function
  | '0' .. '9' as c -> Char.code c - 48
  | 'a' .. 'f' as c -> Char.code c - 87
  | 'A' .. 'F' as c -> Char.code c - 55
  | _ -> raise (Bad "hex")

(* The bytes in parts of 64, the last of which may be shorter. *)
let parts = function
  | `String t ->
      if String.length t mod 2 = 1 then raise (Bad "hex");
      let byte i = table.((16 * digit t.[2 * i]) + digit t.[(2 * i) + 1]) in
      let rec part from i acc = if i < from then acc else part from (i - 1) (byte i :: acc) in
      let rec upto past acc =
        if past = 0 then acc
        else
          let from = (past - 1) / 64 * 64 in
          upto from (part from (past - 1) [] :: acc) in
      upto (String.length t / 2) []
  | _ -> raise (Bad "bytes")

(* The members of an object that has exactly these names; of two with one name the last. *)
let members names = function
  | `Assoc l ->
      if List.exists (fun (n, _) -> not (List.mem n names)) l then raise (Bad "member");
      let l = List.rev l in
      fun n -> (try List.assoc n l with Not_found -> raise (Bad n))
  | _ -> raise (Bad "object")

let items = function `List l -> l | _ -> raise (Bad "array")

let settings v =
  let names =
    [ "version"; "greatest_batch"; "greatest_transfer"; "lone"; "batch"; "fence"; "staging" ] in
  let m = members names v in
  let n name = number (m name) in
  let batch =
    match (whole (m "version"), m "batch") with
    | 2L, `List l -> BySize (List.map number l)
    | _, v -> Flat (number v) in
  { version = n "version"; greatest_batch = n "greatest_batch";
    greatest_transfer = n "greatest_transfer"; lone = n "lone"; batch;
    fence = n "fence"; staging = n "staging" }

let piece v =
  if Int64.unsigned_compare (whole v) 0xffffffffL > 0 then raise (Bad "piece");
  number v

let certificate v =
  let m = members [ "pairs"; "prices"; "version" ] v in
  { cert_version = number (m "version");
    prices = List.map number (items (m "prices"));
    pairs =
      List.map
        (function
          | `Null -> None
          | `List [ a; b ] -> Some (piece a, piece b)
          | _ -> raise (Bad "pair"))
        (items (m "pairs")) }

let timed = Array.exists (( = ) "--time") Sys.argv

let answer line =
  let began = Sys.time () in
  try
    let job = Yojson.Safe.from_string line in
    let listed = match job with `Assoc l -> List.mem_assoc "list" l | _ -> false in
    let names = [ "do"; "settings"; "portal"; "staging"; "certificate" ] in
    let m = members (if listed then "list" :: names else names) job in
    if m "do" <> `String "check" then raise (Bad "do");
    let s = settings (m "settings") in
    let portal = parts (m "portal") in
    let staged = parts (m "staging") in
    let c = certificate (m "certificate") in
    let l = if listed then parts (m "list") else [] in
    let read = Sys.time () in
    let r =
      if listed then quick_check_list s l portal staged c else quick_check s portal staged c in
    if timed then
      Printf.eprintf "reading %.3f s, checking %.3f s\n%!" (read -. began) (Sys.time () -. read);
    match r with Some cost -> "{\"cost\":" ^ Num.text cost ^ "}" | None -> "refused"
  with
  | Bad why -> "refused " ^ why
  | Yojson.Json_error _ -> "refused json"
  | Stack_overflow -> "no answer: stack" (* several times the most pieces *)
  | Out_of_memory -> "no answer: memory"

(* Most values live until the line is answered: so a large young heap and few collections of the old
   one save time. *)
let () = Gc.set { (Gc.get ()) with Gc.minor_heap_size = 1 lsl 20; Gc.space_overhead = 400 }

let () =
  try
    while true do
      print_endline (answer (input_line stdin))
    done
  with End_of_file -> ()
