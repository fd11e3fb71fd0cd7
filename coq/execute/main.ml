(* Lines of {"portal", "staging", "base", "bytes"}: how many pieces finish, and the bytes after a
   complete run. With "list" and "greatest" in place of the first two: the bytes after executing the
   list in order. *)
open Sim
let digit c = match c with '0' .. '9' -> Char.code c - 48 | _ -> Char.code c - 87
let byte_at t i = (16 * digit t.[2 * i]) + digit t.[(2 * i) + 1]
let bytes t = List.init (String.length t / 2) (fun i -> Z.of_int (byte_at t i))
let () =
  try
    while true do
      let j = Yojson.Safe.from_string (input_line stdin) in
      let text n = Yojson.Safe.Util.(to_string (member n j)) in
      let number n = Z.of_int Yojson.Safe.Util.(to_int (member n j)) in
      let base = number "base" in
      let image = text "bytes" in
      let n = String.length image / 2 in
      let b x =
        let k = Z.sub x base in
        if Z.sign k < 0 || Z.geq k (Z.of_int n) then failwith "outside";
        Z.of_int (byte_at image (Z.to_int k)) in
      let print after =
        for k = 0 to n - 1 do
          Printf.printf "%02x" (Z.to_int (after (Z.add base (Z.of_int k))))
        done;
        print_newline () in
      if Yojson.Safe.Util.member "list" j <> `Null then
        print (executed_list (number "greatest") (bytes (text "list")) b)
      else match outcome (bytes (text "portal")) (bytes (text "staging")) b with
      | None -> print_endline "none"
      | Some (count, after) -> print_string (Z.to_string count ^ " "); print after
    done
  with End_of_file -> ()
