;; too-few-values: add with one value
(assert_invalid (module
(import "env" "putchar" (func $putchar (param i32)))
(func (export "main") (call $putchar (i32.const 65)) (i32.const 1) i32.add drop)) "type mismatch")
