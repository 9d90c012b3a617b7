;; call-without-argument: a call without its argument
(assert_invalid (module
(import "env" "putchar" (func $putchar (param i32)))
(func (export "main") (call $putchar (i32.const 65)) call 0)) "type mismatch")
