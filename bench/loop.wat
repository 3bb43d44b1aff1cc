;; The loop of bench/images.py, for wasm-interp. bench/run writes the number of rounds in the place of ROUNDS.
(module
  (func (export "loop") (result i32)
    (local $i i32) (local $n i32) (local $one i32) (local $a i32) (local $b i32)
    (local.set $n (i32.const ROUNDS))
    (block $end
      (loop $again
        (br_if $end (i32.eqz (i32.lt_u (local.get $i) (local.get $n))))
        (local.set $one (i32.const 1))
        (local.set $a (i32.add (local.get $a) (local.get $i)))
        (local.set $b (i32.sub (local.get $a) (local.get $b)))
        (local.set $i (i32.add (local.get $i) (local.get $one)))
        (br $again)))
    (i32.add (local.get $a) (local.get $b))))
