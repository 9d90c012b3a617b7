;; if-without-else-value: an if with a value and without else
(assert_invalid (module
(import "env" "putchar" (func $putchar (param i32)))
(func (export "main") (call $putchar (i32.const 65)) (drop (if (result i32) (i32.const 1) (then (i32.const 2)))))) "type mismatch")
