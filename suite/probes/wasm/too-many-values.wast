;; too-many-values: a value left at the function's end
(assert_invalid (module
(import "env" "putchar" (func $putchar (param i32)))
(func (export "main") (call $putchar (i32.const 65)) (i32.const 1))) "type mismatch")
