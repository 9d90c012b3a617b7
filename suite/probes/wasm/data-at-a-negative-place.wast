;; data-at-a-negative-place: a segment at -1
(assert_trap (module
(import "env" "putchar" (func $putchar (param i32)))
(memory 1)
(data (i32.const -1) "a")
(func (export "main") (call $putchar (i32.const 65)) )) "out of bounds memory access")
