;; A counter. wat2wasm of wabt 1.0.32 makes wabt.wasm of it, and wasm-as of Binaryen 108 makes
;; binaryen.wasm. They differ in the order of their types alone, so wasmnorm makes them equal.
(module
  (import "host" "log" (func $log (param i32)))
  (memory (export "memory") 1)
  (global $count (mut i32) (i32.const 0))
  (func $bump
    (global.set $count (i32.add (global.get $count) (i32.const 1))))
  (func (export "count") (result i32)
    (call $bump)
    (call $log (global.get $count))
    (global.get $count))
  (func (export "reset")
    (global.set $count (i32.const 0))))
