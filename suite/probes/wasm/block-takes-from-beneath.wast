;; block-takes-from-beneath: a block takes a value from beneath
(assert_invalid (module
(import "env" "putchar" (func $putchar (param i32)))
(func (export "main") (call $putchar (i32.const 65)) (i32.const 1) (block drop))) "type mismatch")
