;; if-without-condition: an if without a value to decide by
(assert_invalid (module
(import "env" "putchar" (func $putchar (param i32)))
(func (export "main") (call $putchar (i32.const 65)) if end)) "type mismatch")
